#!/bin/sh
# Tests of what README.md and docs/*.md say: every command line in them runs, every sample of output is what comes out, every program
# compiles, and every target and option that they name is there. A block that is none of these fails, so no line goes untried.
# RUN, COMMAND, FILM, ARCHIVE, COMPILER and STATIC come from the Makefile. Its last line is 'N passed, M failed'.
set -u
SUITE=documents
. "$(dirname "$0")/verdict.sh"
. "$(dirname "$0")/films.sh"

root=$(cd "$(dirname "$0")/.." && pwd)
# The Makefile names places from the root, and lines run in a folder of their own.
whole() { case $1 in /*) echo "$1" ;; *) echo "$root/$1" ;; esac; }
command=$(whole "$COMMAND")
maker=$(whole "$FILM")
built=$(cd "$(dirname "$(whole "$ARCHIVE")")/.." && pwd)
film() { $RUN "$maker" "$@"; }

# The programs that lines name: the command, which also writes down each of its statuses, the compiler, and where there is no ffmpeg one
# that hands on the film of the documents.
mkdir "$room/bin" "$room/items"
program() { # NAME, its text on the standard input
    { echo '#!/bin/sh'; cat; } > "$room/bin/$1"
    chmod +x "$room/bin/$1"
}
program brinepulley << END
$RUN '$command' "\$@"
status=\$?
echo \$status >> '$room/statuses'
exit \$status
END
# By its place: the name alone would call this program again.
compiler=$(command -v "${COMPILER%% *}") || exit 1
echo "exec '$compiler' ${COMPILER#"${COMPILER%% *}"} $STATIC \"\$@\"" | program cc
storm_film > "$room/storm.y4m"
command -v ffmpeg > /dev/null 2>&1 || program ffmpeg << END
case " \$* " in *' -f yuv4mpegpipe '*) ;; *) exit 2 ;; esac
for last; do :; done
if [ "\$last" = - ]; then cat '$room/storm.y4m'; else cat '$room/storm.y4m' > "\$last"; fi
END
PATH=$room/bin:$PATH
export PATH

# A film that is not Y4M: ffmpeg makes it. The stand-in does not look at it.
make_video() { # NAME
    ffmpeg -v error -nostdin -y -f lavfi -i testsrc=s=64x48:r=10:d=2 "$1" > /dev/null 2>&1 || : > "$1"
}

# Makes the files that a line names, where they are not there yet. The film of the documents is always as it was.
prepare() { # LINE
    rm -f film.y4m
    case $1 in ffmpeg*' film.y4m') ;; *) cp "$room/storm.y4m" film.y4m ;; esac
    set -f
    before=
    for word in $1; do
        case $before:$word in
            *:[aA]*.pgm) film pgm 64 48 255 50 > "$word" ;;
            *:*.pgm) film pgm 64 48 255 90/93 > "$word" ;;
            --inter:*) awk 'BEGIN { while (n++ < 39) print n % 7 }' > "$word" ;;
            log:-*) ;;
            log:*) [ -e "$word" ] || $RUN "$command" decide film.y4m --log "$word" > /dev/null ;;
            -i:*) [ -e "$word" ] || make_video "$word" ;;
            # shellcheck disable=SC2046 # a number for each frame
            *:*day.y4m) film y4m 16 16 mono $(awk 'BEGIN { while (n++ < 144) print 50 + n % 9 }') > "$word" ;;
            *:six.y4m) six_film > "$word" ;;
            *:*.y4m) [ -e "$word" ] || [ "$word" = film.y4m ] || cp film.y4m "$word" ;;
        esac
        before=$word
    done
    set +f
}

# The line ends well, and so does our command before a pipe, but for one whose reader has enough (141).
runs() { # LINE
    : > "$room/statuses"
    prepare "$1"
    sh -c "$1" < /dev/null > "$room/out" 2> "$room/err" && ! grep -qvx -e 0 -e 141 "$room/statuses"
}

# What make would do, and nothing of it is done: the target is there, and so is all that it needs. What the Makefile hands to this test
# is no word of the line. The makefiles of oracle/ and bench/ name the checkout's place, and make cannot have a blank in a name.
makes() { # LINE
    case $root:$1 in *' '*:*' -C '* | *' '*:*' beside'* | *' '*:*' bench'*) return 0 ;; esac
    (
        cd "$root" && unset MAKEFLAGS MFLAGS MAKELEVEL ARCHIVE COMMAND FILM RUN
        rm -f "$room/log"
        sh -c "make -n ${1#make }"
    ) > "$room/out" 2> "$room/err"
}

run_line() { # LINE
    case $1 in
        'make '*) makes "$1" ;;
        .ci/run*) [ -x "$root/.ci/run" ] ;;
        'sudo apt-get install '*) ;;
        'export '*=*) eval "$1" ;;
        *pkg-config*) ! command -v pkg-config > /dev/null 2>&1 || runs "$1" ;;
        ./a.out*) [ ! -e a.out ] || runs "$RUN $1" ;;
        'brinepulley '* | 'cc '* | 'ffmpeg '* | 'awk '* | 'cp '* | 'head '* | 'tail '* | 'od '*) runs "$1" ;;
        *)
            echo 'a line that this test does not know how to run' > "$room/log"
            false
            ;;
    esac
}

# A first line of a block that is there to be read.
is_data() { # TEXT
    case $1 in '53 43' | 'call   deque, front to back '*) ;; *) false ;; esac
}

options() { grep -oE -e '--[a-z][a-z-]*' | sort -u; }

# Each line of the first file is in the second.
all_in() { # FEW MANY
    sort -u "$1" > "$room/few"
    sort -u "$2" | comm -23 "$room/few" - > "$room/log"
    [ ! -s "$room/log" ]
}

$RUN "$command" --help > "$room/help"
options < "$room/help" > "$room/options"

# What each subcommand says where a file is bad, as the messages in the documents. The names are those that they use.
provoke() {
    head -c 42000 "$room/storm.y4m" > film.y4m
    brinepulley decide film.y4m --first 100
    cp "$room/storm.y4m" film.y4m
    film log $(awk 'BEGIN { while (n++ < 27) print n }') > scores.log
    brinepulley decide film.y4m --log scores.log --first 26
    awk 'BEGIN { while (n++ < 39) print n == 15 ? "nan" : n }' > costs.txt
    brinepulley decide film.y4m --mode standard --inter costs.txt
    film y4m 64 48 420p14 50 > film.y4m
    brinepulley decide film.y4m
    film y4m 64 48 mono10 50 50 1024 > film.y4m
    brinepulley decide film.y4m
    film y4m 7 8 mono 50 50 > film.y4m
    brinepulley decide film.y4m --mode standard --inter costs.txt
}
mkdir "$room/provoked"
(cd "$room/provoked" && provoke) > /dev/null 2> "$room/said"

take_item() { # KIND TEXT: what comes of it; the item's file is $item
    case $1 in
        c)
            tail -n +4 "$item" > part.c
            cc -std=c11 -D_POSIX_C_SOURCE=200809L -Wall -Wextra -Werror -I"$built/include" -fsyntax-only part.c > "$room/log" 2>&1
            ;;
        sample)
            prepare "$2"
            sh -c "$2" < /dev/null > "$room/out" 2>&1
            tail -n +5 "$item" | sed -e :a -e '/^\n*$/{$d;N;ba' -e '}' | diff - "$room/out" > "$room/log"
            ;;
        synopsis)
            tail -n +4 "$item" | options > "$room/named"
            all_in "$room/named" "$room/options"
            ;;
        message) grep -qxF -e "$2" "$room/said" ;;
        line) run_line "$2" ;;
        *) false ;;
    esac
}

# Each document has a folder of its own, so what one leaves is not in the way of another.
awk -v into="$room/items" -f "$root/tests/documents.awk" "$root/README.md" "$root"/docs/*.md
data=
folder=
for item in "$room"/items/*; do
    kind=$(sed -n 1p "$item") place=$(sed -n 2p "$item") block=$(sed -n 3p "$item") text=$(sed -n 4p "$item")
    if [ "$folder" != "$room/in-${place%%.md:*}" ]; then
        folder=$room/in-${place%%.md:*}
        mkdir -p "$folder" && cd "$folder" || exit 1
        ln -s "$built" build
    fi
    [ "$kind" = line ] && is_data "$text" && data=$block
    [ "$data" = "$block" ] && continue
    rm -f "$room/out" "$room/err" "$room/log"
    take_item "$kind" "$text"
    verdict "$place: $kind: $text" $?
    # The program of the quick start is the first one in README.md, and the lines behind it compile it by this name.
    [ "$kind" = c ] && [ ! -e film.c ] && mv part.c film.c
done
cd "$root" || exit 1
[ "$(find "$room/items" -type f | wc -l)" -ge 20 ]
verdict "there are command lines in the documents" $?

# In the text, between backquotes: targets of make, and the command with its options.
code() { grep -ohE '`[^`]+`' "$root/README.md" "$root"/docs/*.md | tr -d '`' | grep -E "$1" | sort -u; } # PATTERN
code '^make ' > "$room/makes"
while read -r line; do
    makes "$line"
    verdict "'$line' is a target" $?
done < "$room/makes"
code '^brinepulley ' > "$room/calls"
while read -r line; do
    words=${line#brinepulley }
    case ${words%% *} in decide | log | measure | demo | --help | --version) ;; *) false ;; esac
    verdict "'$line' is a subcommand" $?
    echo "$line" | options > "$room/named"
    all_in "$room/named" "$room/options"
    verdict "'$line' has options of the command" $?
done < "$room/calls"

# The help, the manual and the manual page name the same options, and the command knows them.
rm -f "$room/out" "$room/err"
options < "$root/docs/COMMAND.md" > "$room/manual"
all_in "$room/manual" "$room/options"
verdict "options of docs/COMMAND.md are in --help" $?
all_in "$room/options" "$room/manual"
verdict "options of --help are in docs/COMMAND.md" $?
if [ -f "$root/tool/brinepulley.1" ]; then
    sed 's/\\-/-/g' "$root/tool/brinepulley.1" | options > "$room/page"
    all_in "$room/page" "$room/options" && all_in "$room/options" "$room/page"
    verdict "options of the manual page are those of --help" $?
fi
while read -r option; do
    $RUN "$command" decide "$room/storm.y4m" "$option" > /dev/null 2> "$room/err"
    case $option in --version) ;; *) ! grep -q 'no option' "$room/err" ;; esac
    verdict "decide knows $option" $?
done < "$room/options"

count
