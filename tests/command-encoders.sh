# Part of command.sh: films as common encoders write them. Each is drawn with the luma of the plain film of its size, and with chroma that
# no other film has. So the answers must be those of the plain film, byte for byte, and a reader that takes a byte of chroma for luma,
# or one sample for its neighbour, gives others.
encoded=$room/encoded.y4m
sea='50 52 51 50 53 50 90 92 91 90 93 90 91 93 90 92 90'
awk 'BEGIN { while (n++ < 16) print n == 6 ? 40 : n % 5 }' > "$room/encoded.costs"
by_costs="--mode standard --inter $room/encoded.costs"

# What the plain film says: a cut at 6, in each mode with scores; in Standard mode where it has a whole block. BITS are those of a sample; none
# stands for 8.
plain() { # WIDTH HEIGHT BITS
    film header "W$1 H$2 Cmono${3-}" FRAME $sea > "$encoded"
    cuts_at "a plain film of $1 × $2 ${3-}" "0 6" "$encoded"
    cp "$room/out" "$room/plain.fast"
    has_block=$(($1 >= 8 && $2 >= 8))
    [ $has_block = 1 ] || return
    command_run decide "$encoded" --csv $by_costs
    cp "$room/out" "$room/plain.standard"
    [ "$status" = 0 ] && [ "$(wc -l < "$room/out")" = 18 ]
    verdict "a plain film of $1 × $2 ${3-} in standard mode" $?
}

# A film with this header and this line before each frame answers as the plain one.
reads() { # WORDS LINE
    film header "$1" "$2" $sea > "$encoded"
    gives "'$1', '$2'" "$room/plain.fast" decide "$encoded" --csv
    [ $has_block = 1 ] && gives "'$1', '$2', standard mode" "$room/plain.standard" decide "$encoded" --csv $by_costs
}

for sides in '65 47' '64 48' '63 1' '1 1' '483 243'; do
    w=${sides% *} h=${sides#* }
    # shellcheck disable=SC2086 # two words
    plain $sides
    # ffmpeg: each pixel format of 8 bits that it writes, of both ranges, and interlaced
    for colour in 420jpeg:420JPEG 420mpeg2:420MPEG2 420paldv:420PALDV 422:422 444:444; do
        reads "W$w H$h F25:1 Ip A1:1 C${colour%:*} XYSCSS=${colour#*:} XCOLORRANGE=LIMITED" FRAME
    done
    reads "W$w H$h F30000:1001 It A10:11 C420mpeg2 XYSCSS=420MPEG2 XCOLORRANGE=LIMITED" FRAME
    reads "W$w H$h F25:1 Ib A16:15 C420jpeg XYSCSS=420JPEG XCOLORRANGE=FULL" FRAME
    reads "W$w H$h F25:1 Ip A0:1 Cmono XCOLORRANGE=FULL" FRAME
    # mjpegtools: rates and shapes that are not known, and films of which each frame says how it is interlaced
    reads "W$w H$h F0:0 I? A0:0 C420jpeg" FRAME
    reads "W$w H$h F25:1 Im A59:54 C420paldv" 'FRAME Itpp'
    reads "W$w H$h F30000:1001 Im A10:11 C422" 'FRAME I1pi XNOTE=a_field_is_shown_again XC420=no'
    reads "W$w H$h F24:1 Im A1:1 C444" 'FRAME Ibsp'
    # vspipe and GStreamer: the colour comes first
    reads "C420 W$w H$h F24000:1001 Ip A0:0 XLENGTH=17" FRAME
    reads "C444 W$w H$h F60:1 Ip A0:0 XLENGTH=17" FRAME
    reads "C422 W$w H$h It F50:1 A12:11" FRAME
    # avs2yuv: no colour is named, and it is 4:2:0
    reads "W$w H$h F25:1 Ip A0:0" FRAME
    # vpxdec, aomdec and dav1d
    reads "W$w H$h F30:1 Ip C420jpeg" FRAME
    reads "W$w H$h F30000:1000 Ip C420 XCOLORRANGE=FULL" FRAME
    reads "W$w H$h F24:1 Ip C420mpeg2 XYSCSS=420MPEG2" FRAME
    reads "W$w H$h F1:600 Ip A64:45 C444" FRAME
done

# What the format lets anybody write: words in any order, several comments, blanks more than one, and a word of each kind that is
# nobody's. The last plain film is the largest, and this one is small again.
plain 65 47
reads 'XFIRST=1 A1:1 XW1 XH1 H47 Ip XCmono F25:1 C422 W65 XLAST' FRAME
reads '  W65   H47  C420jpeg  ' 'FRAME  Ip   XTIME=12:00 XWIND=9 '
reads 'W65 H47 C420 X X X=' 'FRAME X'
reads 'W00065 H047 Z1 Cmono' 'FRAME W1 H1 C444'
reads "W65 H47 C444 $(awk 'BEGIN { while (n++ < 100) printf "XNOTE=%d ", n }')" FRAME

# Films of 10 and 12 bits, with two bytes a sample in luma and in chroma. Luma has another high byte from the cut on.
sea_8=$sea
for bits in 10 12; do
    sea=$(echo "$sea_8" | awk -v high=$((bits == 10 ? 180 : 700)) '{ for (i = 1; i <= NF; i++) $i += high + ($i > 80 ? 300 : 0); print }')
    for sides in '65 47' '64 48' '63 1' '1 1' '483 243'; do
        w=${sides% *} h=${sides#* }
        # shellcheck disable=SC2086 # two words
        plain $sides $bits
        # ffmpeg: each pixel format, of both ranges, and interlaced in each way
        for colour in 420 422 444; do
            reads "W$w H$h F25:1 Ip A1:1 C${colour}p$bits XYSCSS=${colour}P$bits XCOLORRANGE=LIMITED" FRAME
        done
        reads "W$w H$h F30000:1001 It A10:11 C420p$bits XYSCSS=420P$bits XCOLORRANGE=FULL" FRAME
        reads "W$w H$h F25:1 Ib A16:15 C422p$bits XYSCSS=422P$bits XCOLORRANGE=LIMITED" FRAME
        reads "W$w H$h F25:1 Im A0:1 C444p$bits XYSCSS=444P$bits" 'FRAME Itpp'
        reads "W$w H$h F25:1 Ip A0:1 Cmono$bits XYSCSS=400 XCOLORRANGE=FULL" FRAME
        # vspipe, aomdec and dav1d
        reads "C420p$bits W$w H$h F24000:1001 Ip A0:0 XLENGTH=17" FRAME
        reads "W$w H$h F30:1 Ip C420p$bits XYSCSS=420P$bits" FRAME
        reads "W$w H$h F1:600 Ip C444p$bits" FRAME
    done
done
sea=$sea_8

# ffmpeg itself, where it is: two scenes that it draws, in each pixel format and for an odd size. It takes the luma out of them, as a
# gray film, and both films have the same answers.
if command -v ffmpeg > /dev/null 2>&1; then
    scenes() { # SIZE FILTER: the film goes to $encoded
        ffmpeg -v error -nostdin -y -f lavfi -i "testsrc=s=$1:r=25:d=0.4" -f lavfi -i "smptebars=s=$1:r=25:d=0.6" \
            -filter_complex "[0][1]concat=n=2,$2" -f yuv4mpegpipe "$encoded" 2> "$room/log"
    }
    for size in 65x47 64x48 642x486; do
        for format in yuv420p yuvj420p yuv422p yuvj422p yuv444p yuvj444p gray; do
            luma="format=$format,extractplanes=y"
            [ "$format" = gray ] && luma=format=gray
            scenes "$size" "$luma" && command_run decide "$encoded" --csv && cp "$room/out" "$room/plain.fast" &&
                [ "$(cuts)" = "0 10" ]
            verdict "ffmpeg's gray film, $size of $format" $?
            scenes "$size" "format=$format,setfield=tff,setsar=10/11"
            gives "ffmpeg's film, $size of $format" "$room/plain.fast" decide "$encoded" --csv
        done
    done

    # Deeper films, which ffmpeg writes where it is told -strict -1.
    for format in yuv420p10le yuv422p12le yuv444p10le gray12le; do
        ffmpeg -v error -nostdin -y -f lavfi -i "testsrc=s=64x48:r=25:d=0.4" -f lavfi -i "smptebars=s=64x48:r=25:d=0.6" \
            -filter_complex "[0][1]concat=n=2,format=$format" -strict -1 -f yuv4mpegpipe "$encoded" 2> "$room/log" &&
            command_run decide "$encoded" --csv && [ "$(cuts)" = "0 10" ]
        verdict "ffmpeg's film of $format" $?
    done

    # A camera's pictures have the full range. A change of 20 at frame 12 is a cut; as docs/COMMAND.md says, in the range of most films it
    # is 17 and none.
    mkdir "$room/camera"
    film header 'W64 H48 F1:600 Ip A1:1 C420jpeg XCOLORRANGE=FULL' FRAME $(awk 'BEGIN { while (n++ < 30) print n < 13 ? 100 : 120 }') |
        ffmpeg -v error -f yuv4mpegpipe -i - -c:v mjpeg -q:v 1 "$room/camera/pic%02d.jpg" 2> "$room/log"
    for range in 'yuvj420p 0 12' 'yuv420p 0'; do
        ffmpeg -v error -nostdin -y -framerate 1/600 -i "$room/camera/pic%02d.jpg" -pix_fmt "${range%% *}" -f yuv4mpegpipe \
            "$encoded" 2> "$room/log"
        cuts_at "a camera's pictures as ${range%% *}" "${range#* }" "$encoded"
    done
fi
