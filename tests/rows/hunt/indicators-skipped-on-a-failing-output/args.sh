printf '%s\n' --indicators "$top/tests/rows/hunt/indicators-skipped-on-a-failing-output/feed" 2021-06-10T00:01:00Z
