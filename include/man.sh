#!/bin/sh
# Writes a manual page, list.1 or blist.3, from the words of the script list and of the header, so that they cannot drift.
#   sh include/man.sh list.1|blist.3 VERSION
set -eu
cd "$(dirname "$0")/.."
page=$1 version=$2

# lines as they are: a backslash, and a dot or an apostrophe at the start, mean something to a manual page
plain() { sed -e 's/\\/\\e/g' -e 's/^\([.'\'']\)/\\\&\1/' -e 's/-/\\-/g'; }

head_of() { # NAME SECTION SUMMARY
    printf '.TH %s %s "" "blist %s"\n.SH NAME\n%s\n' "$1" "$2" "$version" "$3"
}

case $page in
list.1)
    help=$(./list --help)
    head_of LIST 1 "$(printf '%s\n' "$help" | sed -n 's/-/\\-/; 1p')"
    printf '%s\n' "$help" | sed 1,2d | plain | awk '
        /^[a-z]+:$/ { sub(/:$/, ""); sub(/^usage$/, "synopsis"); if (open) print ".fi"; print ".SH " toupper($0); print ".nf"; open = 1; next }
        { sub(/^  /, ""); print }
        END { print ".fi" }'
    printf '.SH SEE ALSO\n.BR blist (3)\n'
    ;;
blist.3)
    head_of BLIST 3 'blist \- Boolean expressions of solids to Blist tables, and the run that reads them'
    printf '.SH SYNOPSIS\n.nf\n#include <blist.h>\n\n'
    sed -n '/^[a-z].* \**blist_[a-z]*(.*);$/p' include/blist.h | plain
    printf '\ncc \\&... $(pkg\\-config \\-\\-cflags \\-\\-libs blist)\n.fi\n'
    # the comments as text and the declarations under them, in the order of the header; left out are the preprocessor's lines,
    # the layout, and the bodies of functions
    plain < include/blist.h | awk '
        function section(name) { if (open) print ".fi"; print ".SH " name; print ".nf"; open = 1 }
        /^\/\* blist\.h/ { section("DESCRIPTION"); text = 1; next }
        /^\/\* Limits/ { section("LIMITS") }
        /^\/\* The text$/ { section("TEXT AND TABLE") }
        /^\/\* The numbered refusals/ { section("REFUSALS") }
        /^\/\* What blist_compile returns/ { section("RESULTS") }
        /^\/\* The layout that/ { hidden = 1 }
        /^\/\* Compiles a text/ { hidden = 0; section("FUNCTIONS") }
        hidden || /^#(if|ifndef|ifdef|else|elif|endif|include|define BLIST_H$)/ || /^extern "C"/ { next }
        /^\/\*/ { text = 1; sub(/^\/\* ?/, "") }
        text { ends = sub(/ ?\*\/$/, ""); sub(/^ \*? ?/, ""); if ($0 != "" || !ends) print; if (ends) text = 0; next }
        /^static inline/ { sub(/^static inline /, ""); print "    " $0 ";"; inside = 1; next }
        inside { if (/^}/) inside = 0; next }
        /^}$/ { next }
        { if ($0 == "") { if (!blank) print; blank = 1 } else { print "    " $0; blank = 0 } }
        END { print ".fi" }'
    printf '.SH SEE ALSO\n.BR list (1)\n'
    ;;
*) echo "man.sh: no page $page" >&2; exit 2 ;;
esac
