# all 792 sets of five of the twelve, by their greatest number
for ((e = 5; e <= 12; e++)); do for ((a = 1; a < e; a++)); do for ((b = a + 1; b < e; b++)); do for ((c = b + 1; c < e; c++)); do for ((d = c + 1; d < e; d++)); do
  echo "$e: $a $b $c $d $e"
done; done; done; done; done
