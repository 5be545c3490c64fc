# Functions for shell scripts that use the files of a server, by the word `do` alone. They need bash.
#
#     . examples/acme.sh
#
# ACMEFS is the program (./acmefs beside this folder, or the installed one), ACME the socket that all calls use. Each
# call is a connection of its own, so ACME is the socket of bin/acmefs-front, or a slot's own where there is one call
# alone. What the server refuses is told on the standard error, and the status is 1 then.
#
#     acme_lines PREFIX < TEXT        the text as lines `PREFIX:TEXT` of `do`, of at most 8,000 bytes each
#     acme_text < LINE                the text that stands in one line, behind its `:`
#     acme_write FILE < TEXT          writes a text to a file, as `1/body`, in pieces
#     acme_cat FILE [BYTES]           writes out what stands in a file, at most so many bytes. Each million is a call
#     acme_replace N [ADDRESS] < TEXT puts a text in the place of an address in a window's body, or of all of it
#     acme_ctl N MESSAGE..            writes messages to a window's ctl, each a line
#     acme_new [NAME]                 makes a window, and tells its number
#     acme_window NAME                the number of the window of that name
#     acme_plumb [-s SRC] [-d DST] [-w WDIR] [-t TYPE] [-a ATTR] DATA    sends a text to the plumber, as plumb(1) does
#     ssam [-n] [-e SCRIPT] [-f FILE] [SCRIPT] [FILE..]    edits a text by commands of sam, without a server, as that of
#                                     plan9port does; what differs is told by the page of bin/acmefs-ssam, which it is:
#                                     no program is run, `/` alone delimits, a fault ends the script, a bare address
#                                     prints nothing, and `=` knows no name
#
# An edit of a window's body, by a script of sam:
#
#     acme_cat 1/body | ssam ',s/old/new/g' | acme_replace 1

# where the programs are, as in the repository; as installed they are in the path
acme_home=$(dirname -- "$(dirname -- "$(readlink -f -- "${BASH_SOURCE[0]}")")")
[ -x "$acme_home/bin/acmefs-ssam" ] || acme_home=
ACMEFS=${ACMEFS:-${acme_home:+$acme_home/}acmefs}

# A line of the text is one line, cut behind a rune where it is too long. Bytes that are no UTF-8 become U+FFFD, and a
# text without a last newline stays so.
acme_lines() {
    python3 -c '
import sys
for bytes in sys.stdin.buffer:
    text = bytes.decode("utf-8", "replace")
    while text:
        piece = text[:8000].encode()[:8000].decode("utf-8", "ignore")
        text = text[len(piece):]
        line = piece.replace("\\", "\\\\").replace("\n", "\\n")
        sys.stdout.buffer.write(f"{sys.argv[1]}:{line}\n".encode())
' "$1"
}

acme_text() {
    python3 -c '
import re, sys
line = sys.stdin.buffer.read().decode("utf-8", "surrogateescape").rstrip("\n").partition(":")[2]
text = re.sub(r"\\(.)", lambda it: "\n" if it[1] == "n" else it[1], line)
sys.stdout.buffer.write(text.encode("utf-8", "surrogateescape"))
'
}

# Does lines, and tells what is refused, and that nothing was done. What was read goes to the standard output.
acme_do() {
    local ends
    "$ACMEFS" do "$ACME" "${1:-acme}" | {
        status=0
        while IFS= read -r line; do
            case $line in
            'data :') ;;
            'data :'*) printf '%s\n' "$line" | acme_text ;;
            ok*) ;;
            *) printf '%s\n' "$line" >&2 && status=1 ;;
            esac
        done
        exit "$status"
    }
    ends=("${PIPESTATUS[@]}")
    [ "${ends[0]}" -eq 0 ] || { echo "acmefs do ended with status ${ends[0]} (acmefs(1) has what it means)" >&2 && return 1; }
    return "${ends[1]}"
}

acme_write() {
    { printf 'open 1 %s w\n' "$1" && acme_lines 'write 1 0 '; } | acme_do
}

# A read may cut a rune in two, whose bytes are shown as U+FFFD each, as a rune U+FFFD is. So each read begins some
# bytes before the end of the one before: what it shows of them is known, and its size tells how many are cut at its end.
acme_cat() {
    python3 -c '
import re, subprocess, sys
READ, STEP, READS = 8000, 7992, 131
program, path, name, most = sys.argv[1], sys.argv[2], sys.argv[3], int(sys.argv[4])
text, at, size = bytearray(), 0, READ
while size >= READ and len(text) < most:
    lines = [f"open 1 {name} r", *(f"read 1 {at + STEP * it} {READ}" for it in range(READS))]
    asked = "".join(f"{it}\n" for it in lines).encode("utf-8", "surrogateescape")
    ran = subprocess.run([program, "do", path, "acme"], input=asked, stdout=subprocess.PIPE)
    answers = ran.stdout.decode("utf-8").split("\n")[:-1]
    fault = next((it for it in answers if not it.startswith(("ok", "data :"))), None)
    if ran.returncode or fault:
        sys.exit(fault or f"do ended with status {ran.returncode}")
    for line in answers[1:]:
        piece = re.sub(r"\\(.)", lambda it: "\n" if it[1] == "n" else it[1], line[len("data :"):])
        known = text[at:].decode("utf-8", "replace")
        if not piece.startswith(known):
            sys.exit(f"{name} has changed while it was read")
        rest = piece[len(known):]
        size = len(rest.encode()) + len(text) - at
        text += rest[:len(rest) - max(size - READ, 0) // 2].encode()
        at += STEP
        if size < READ:
            break
sys.stdout.buffer.write(text[:most].decode("utf-8", "ignore").encode() if len(text) > most else text)
' "$ACMEFS" "$ACME" "$1" "${2:-1000000000}"
}

# An address that is refused would leave the one before: so it is tried first, in a connection of its own. The write of
# nothing takes the old text away, also where no new one comes.
acme_replace() {
    [ $# -lt 2 ] || printf %s "$2" | acme_write "$1/addr" || return
    {
        printf 'open 1 %s/addr w\nopen 2 %s/data w\n' "$1" "$1"
        printf %s "${2:-,}" | acme_lines 'write 1 0 '
        printf 'write 2 0 :\n'
        acme_lines 'write 2 0 '
    } | acme_do
}

acme_ctl() {
    local number=$1
    shift
    printf '%s\n' "$@" | acme_write "$number/ctl"
}

# The number is read before the name is written: both are of one connection.
acme_new() {
    local number status
    number=$({
        printf 'open 1 new/ctl rw\nread 1 0 12\n'
        [ $# -eq 0 ] || printf 'name %s\n' "$1" | acme_lines 'write 1 0 '
    } | acme_do)
    status=$?
    [ -z "$number" ] || echo "$((number))"
    return "$status"
}

# A line of `index` is five numbers of eleven columns and a blank, and the tag, which begins with the name.
acme_window() {
    acme_cat index | NAME=$1 awk '$6 == ENVIRON["NAME"] { print $1 + 0; found = 1; exit } END { exit !found }'
}

acme_plumb() {
    local OPTIND=1 option src='' dst='' wdir=$PWD type=text attr=''
    while getopts s:d:w:t:a: option; do
        case $option in
        s) src=$OPTARG ;;
        d) dst=$OPTARG ;;
        w) wdir=$OPTARG ;;
        t) type=$OPTARG ;;
        a) attr=$OPTARG ;;
        *) return 2 ;;
        esac
    done
    shift $((OPTIND - 1))
    local size
    size=$(printf %s "$1" | wc -c)
    {
        echo 'open 1 send w'
        printf '%s\n%s\n%s\n%s\n%s\n%d\n%s' "$src" "$dst" "$wdir" "$type" "$attr" "$size" "$1" | acme_lines 'write 1 0 '
    } | acme_do plumb
}

ssam() {
    ACMEFS=$ACMEFS "${acme_home:+$acme_home/bin/}acmefs-ssam" "$@"
}
