#!/bin/sh
# Plays back a conversation in place of `jeprun`, for test_jeprun.py. The variable CONVERSATION names a folder. Each
# `playback.sh drive` takes the first file in it away, and does what its lines say:
#
#     > TEXT    write TEXT
#     < TEXT    read a reply, which has to be TEXT but for its time; lines that only tell the time are passed over
#     # N       end with the status N
#     .         read all other replies
#     kill      end by SIGKILL

set -eu
read -r process < /proc/$$/stat
set -- ${process##*) }
if [ "$4" != $$ ]; then
    echo 'playback.sh: it is in no session of its own, so Ctrl-C would end it' >&2
    exit 9
fi
set -- "$CONVERSATION"/*
exec 3< "$1"
rm "$1"

while IFS= read -r step <&3; do
    case $step in
        '> '*) printf '%s\n' "${step#> }" ;;
        '< '*)
            reply=0
            until case $reply in *[!0-9]*) ;; *) false ;; esac; do
                IFS= read -r reply || reply='the end'
            done
            rest=${reply#*, :time }
            case $reply in *', :time '*) reply=${reply%%, :time *}${rest#"${rest%%[!0-9]*}"} ;; esac
            if [ "$reply" != "${step#< }" ]; then
                echo "playback.sh: wanted ${step#< }, got $reply" >&2
                exit 9
            fi
            ;;
        '# '*) exit "${step#\# }" ;;
        .) cat > /dev/null ;;
        kill) kill -KILL $$ ;;
    esac
done
