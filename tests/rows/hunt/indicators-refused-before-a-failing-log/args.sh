printf '%s\n' --indicators "$top/tests/rows/hunt/indicators-refused-before-a-failing-log/feed" 2021-06-10T00:01:00Z
