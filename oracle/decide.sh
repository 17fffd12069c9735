#!/bin/sh
# Whole films through the crate's own driver against the command.   decide.sh ORACLE BITS SEED COUNT FOLDER RUN.. COMMAND
# BITS is empty for samples of 8 bits, or 16. Ends with 'N passed, M failed'.
set -eu
oracle=$1 bits=$2 seed=$3 count=$4 folder=$5
shift 5
mkdir -p "$folder"
passed=0 failed=0 at=0
while [ $at -lt "$count" ]; do
    film=$((seed * 1000000 + at)) at=$((at + 1))
    "$oracle" "film$bits" $film "$folder"
    # shellcheck disable=SC2046 # the words are the command's
    if (cd "$folder" && "$@" $(cat film.words)) >"$folder/film.csv" 2>"$folder/film.err" && "$oracle" "decided$bits" $film <"$folder/film.csv"
    then passed=$((passed + 1))
    else failed=$((failed + 1)); cat "$folder/film.err"; echo "film$bits $film: $(cat "$folder/film.words")"; fi
done
echo "$passed passed, $failed failed"
