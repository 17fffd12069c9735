# Cuts the documents' code blocks (lines indented by four blanks, behind an empty line) into items, a file each in the folder `into`:
# its kind, its place, its block's number, and then the text. Kinds:
#   c         a program or a part of one: it begins with #include
#   sample    a command behind '$ '; the lines behind it, up to the next such line, are its whole output
#   synopsis  what a command takes: it has a '[' or a choice of options
#   message   what the command says
#   line      any other line, a command that is run as it stands
function item(kind, k) {
    if (out != "")
        close(out)
    out = sprintf("%s/%04d", into, ++items)
    print kind "\n" name ":" at[k] "\n" blocks > out
}

function kind_of(text) {
    if (text ~ /^brinepulley: /)
        return "message"
    return text ~ /^brinepulley .*\[/ || text ~ / \| --/ ? "synopsis" : "line"
}

function end_block(    k, kind, text) {
    while (count > 0 && block[count] == "")
        count--
    if (count > 0)
        blocks++
    for (k = 1; k <= count; k++) {
        if (k == 1 && block[1] ~ /^#include/)
            item(kind = "c", 1)
        if (kind != "c" && block[k] ~ /^\$ /)
            item(kind = "sample", k)
        text = block[k]
        if (kind == "sample" && text ~ /^\$ /)
            text = substr(text, 3)
        else if (kind != "c" && kind != "sample") {
            if (text == "")
                continue
            if (kind != "synopsis" || text !~ /^ /)
                item(kind = kind_of(text), k)
        }
        while (kind == "line" && text ~ /\\$/ && k < count)
            text = substr(text, 1, length(text) - 1) block[++k]
        print text > out
    }
    count = 0
}

FNR == 1 { end_block(); empty = 1; name = FILENAME; sub(/.*\/docs\//, "docs/", name); sub(/.*\/README/, "README", name) }
/^```/ { count = 0; at[1] = FNR; blocks++; item("fence", 1); print > out; next }
/^    / && (count > 0 || empty) { block[++count] = substr($0, 5); at[count] = FNR; next }
/^ *$/ { empty = 1; if (count > 0) { block[++count] = ""; at[count] = FNR }; next }
{ end_block(); empty = 0 }
END { end_block() }
