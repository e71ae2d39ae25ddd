# each set of two with each of three others, by the greatest number, all 12,870
awk 'BEGIN {
  for (end = 1; end <= 13; end++)
    for (a = 1; a < end; a++) for (b = a + 1; b <= end; b++)
      for (c = 1; c < end; c++) for (d = c + 1; d < end; d++) for (e = d + 1; e <= end; e++)
        if ((b == end || e == end) && a != c && a != d && a != e && b != c && b != d && b != e) printf "%d: %d %d %d %d %d\n", end, a, b, c, d, e
}'
