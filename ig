#!/bin/sh
# Runs the program of this script's name with these words, in the caller's directory. The first call
# builds it.
self=$0
[ ! -h "$self" ] || self=$(readlink -f -- "$self") || exit 2
case $self in
    */*) exec "${self%/*}/tools/launch" "${self##*/}" "$@" ;;
    *) exec ./tools/launch "$self" "$@" ;;
esac
