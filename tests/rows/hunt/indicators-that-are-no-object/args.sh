printf '%s\n' --indicators "$top/tests/rows/hunt/indicators-that-are-no-object/feed" 2021-06-10T00:01:00Z
