# shellcheck shell=bash
# Prints the help of the script that sources this file, and ends it, where its first word is -h or --help. The help is the
# script's first comment. A script that changes its folder does so after this file is sourced.
if [[ ${1-} == -h || ${1-} == --help ]]; then
    sed -n '2,/^[^#]/s/^# \{0,1\}//p' "${BASH_SOURCE[-1]}"
    exit 0
fi
