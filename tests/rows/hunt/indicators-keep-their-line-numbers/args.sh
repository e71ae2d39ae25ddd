printf '%s\n' --indicators "$top/tests/rows/hunt/indicators-keep-their-line-numbers/feed" 2021-06-10T00:01:00Z
