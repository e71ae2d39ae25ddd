# any three different ones in any order, of which the sixth is the last; each told at the last of them
awk 'BEGIN {
  for (end = 1; end <= 6; end++)
    for (a = 1; a <= end; a++)
      for (b = 1; b <= end; b++)
        for (c = 1; c <= end; c++)
          if (a != b && b != c && a != c && (a == end || b == end || c == end) && a < 6 && b < 6) printf "%d: %d %d %d\n", end, a, b, c
}'
