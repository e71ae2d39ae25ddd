# all 3,003 sets of six of them, the first three before the others, by the greatest number
for ((f = 6; f <= 14; f++)); do for ((a = 1; a < f; a++)); do for ((b = a + 1; b < f; b++)); do for ((c = b + 1; c < f; c++)); do for ((d = c + 1; d < f; d++)); do for ((e = d + 1; e < f; e++)); do
  echo "$f: $a $b $c $d $e $f"
done; done; done; done; done; done
