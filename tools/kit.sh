#!/bin/sh
# Says in one line, with status 1, if there is no Rattle kit, or one that was never tried with this
# repository (tools/kits has those that were). KIT=any accepts every kit.
tried=$(sed -n 's/^\(rattle-kit-[^ ]*\).*/\1/p' "$(dirname "$0")/kits" | tr '\n' ' ')
if ! command -v rt > /dev/null; then
    echo "there is no rt, the command of the Rattle kit; README.md (Quick start) says where the kit comes from" >&2
    exit 1
fi
kit=$(rt version | cut -d ' ' -f 1)
case " $tried" in
*" $kit "*) ;;
*)
    [ "${KIT:-}" = any ] && exit 0
    echo "$kit was never tried with this repository, only ${tried% }; KIT=any tries it" >&2
    exit 1
    ;;
esac
