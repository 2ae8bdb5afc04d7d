#!/bin/sh
# Has an open shop make a backup, and audits the copy, so that one that isn't whole is noticed the same night.
#
#     examples/nightly_backup.sh FOLDER [URL]
#
# FOLDER is the folder of `cutshop serve --backup FOLDER`. For cron: exits with 0 if the backup was made and is whole. Messages
# from before a store was upgraded have no entries, so the copy of such a store is only read.
set -eu
folder=$1 url=${2:-http://127.0.0.1:8017}
reply=$(curl -fsS -X POST -d '' "$url/backup")
number=$(printf '%s' "$reply" | sed -n 's/.*"backup":\([0-9]*\).*/\1/p')
copy=$folder/$number/$(ls "$folder/$number" | grep -v -e '-wal$')
if output=$(cutshop audit --store "$copy" 2>&1); then
    echo "backup $number is made and whole"
    exit 0
fi
case $output in
*' messages were kept before entries began')
    cutshop history --store "$copy" --read-only > /dev/null
    echo "backup $number is made and can be read"
    ;;
*)
    echo "backup $number isn't whole: $output" >&2
    exit 1
    ;;
esac
