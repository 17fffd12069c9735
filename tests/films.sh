# Films that more than one test draws. `film` is the caller's.

# The film of the documents: forty frames, one every ten minutes. Lightning at 8, a squall from 12 on, one more that comes and goes within
# three frames at 24, and a change at the very end.
storm_film() {
    # shellcheck disable=SC2046 # a number for each frame
    film y4m 64 48 420jpeg $(awk 'BEGIN {
        split("90 92 91 93", ripple, " ")
        for (n = 0; n < 40; n++)
            print n == 8 ? 120 : n < 12 ? 50 : n < 24 ? ripple[1 + n % 4] : n < 27 ? 140 : n < 39 ? ripple[1 + n % 4] : 200
    }')
}

# A film of six frames: the differences of its pairs are 2, 40, 1, 3 and 4.
six_film() { film y4m 64 48 420jpeg 50 52 92 93 96 92; }
