printf '%s\n' --indicators "$top/tests/rows/hunt/indicators-with-a-fraction/feed" 2021-06-10T00:01:00Z
