# Texts as hexadecimal, one a line; a text `hex:...` is so already.
to_hex() {
    while IFS= read -r text; do
        case $text in
        hex:*) echo "${text#hex:}" ;;
        *) printf %s "$text" | od -An -v -tx1 | tr -d ' \n' | tr a-f A-F; echo ;;
        esac
    done
}

# many COUNT TEXT: TEXT so often.
many() {
    awk -v count="$1" -v text="$2" 'BEGIN { while (count-- > 0) printf "%s", text }'
}

# Lines whose first column is hexadecimal, with that column as text: a byte that is no printable ASCII, and `\`, as `\x..`.
from_hex() {
    awk -F'\t' -v OFS='\t' '
        BEGIN { for (i = 0; i < 256; i++) { h = sprintf("%02X", i); of[h] = i < 32 || i > 126 || i == 92 ? "\\x" h : sprintf("%c", i) } }
        { text = ""; for (i = 1; i < length($1); i += 2) text = text of[substr($1, i, 2)]; $1 = text; print }'
}
