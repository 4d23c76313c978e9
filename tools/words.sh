# Words that are answered before the program runs, those for help and for the version; sourced by ./oe and by tools/wrapper, which name the folder of this file $here.

say_version() {
    echo "oe $(cat "$here/VERSION" 2>/dev/null || "$here/version")"
    exit
}

say_usage() {
    cat <<END
oe $(cat "$here/VERSION" 2>/dev/null || "$here/version"): an obstruction evaluation desk under 14 CFR Part 77

  oe desk [--db FILE]       answers records, one a line, and keeps them in FILE
  oe ceiling [--db FILE]    the greatest height without a finding, at a place
  oe stations [--db FILE]   one list of findings for a road, railroad, waterway
  oe asof [--db FILE]       a desk that also has lists as of an earlier entry
  oe serve --listen ADDRESS --workers N --turns M [--db FILE]
                            the same records over HTTP, for programs
  oe generate SEED COUNT    a desk by draws, to try the program on
  oe --help | --version     this page | the commit and its day

Records come from standard input, and replies go to standard output. Tools
beside it make records and show replies: oe-from-points, oe-say, oe-draw and
more (man oe); each has --help. The pages FIVE-MINUTES.md, OFFICE.md and
RECORDS.md are in docs, of an installed oe in share/doc/oe of its prefix.
A reply of this desk is no determination of the FAA.
END
    exit
}

# Ends if the words ask for help or for the version. The program would refuse such words: no value that it takes begins with a dash.
answer_words() {
    case ${1-} in
        --help | -h | help) say_usage ;;
        --version) say_version ;;
        desk | serve | ceiling | stations | asof | generate)
            [ "${2-}" != help ] || say_usage
            for word; do
                case $word in
                    --help | -h) say_usage ;;
                    --version) say_version ;;
                esac
            done ;;
    esac
}
