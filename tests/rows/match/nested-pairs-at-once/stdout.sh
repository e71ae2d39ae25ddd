# the four in any order
for a in 1 2 3 4; do for b in 1 2 3 4; do for c in 1 2 3 4; do for d in 1 2 3 4; do
  [ "$(printf '%s\n' $a $b $c $d | sort -u | wc -l)" = 4 ] && echo "5: $a $b $c $d 5"
done; done; done; done
true
