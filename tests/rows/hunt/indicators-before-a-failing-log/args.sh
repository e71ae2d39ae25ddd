printf '%s\n' --indicators "$top/tests/rows/hunt/indicators-before-a-failing-log/feed" 2021-06-10T00:01:00Z
