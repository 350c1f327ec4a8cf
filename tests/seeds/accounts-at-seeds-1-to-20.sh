# Four sessions move money, read, change and lock at once (accounts.gx): its trace at each seed from 1 to 20, as it was printed before the nodes' code was
# made over, so that a change of what they do shows.
seed=1
while [ "$seed" -le 20 ]; do
  echo "seed $seed"
  "$1" --seed "$seed" --trace < "$(dirname "$0")/accounts.gx" || exit $?
  seed=$((seed + 1))
done
