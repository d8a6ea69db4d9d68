# The net of 200 boxes that net.sh and targets.sh time: 10 chains, each of a box that counts and 19 boxes with a number of their own.
# shellcheck shell=bash

# source_of NUMBER: the net, chain after chain
source_of() {
    echo 'data Pair = P int 64 int 64 ;'
    echo 'less :: int 64 -> int 64 -> int 64 ;'
    echo 'less a b = a - b ;'
    local k j previous expression step
    for k in {0..9}; do
        echo "box h$k in (n :: int 64) out (m :: int 64, y :: int 64) match (n) -> (n + 1, n) ;"
        echo "wire h$k.m to h$k.n initial 0 ;"
        previous=h$k
        for j in {1..19}; do
            case $((j % 4)) in
            0) expression='x + s' step=1 ;;
            1) expression='less x s' step=2 ;;
            2) expression='case P s x of P a b -> a + b end' step=1 ;;
            3) expression='x - <<s, 0>> @ 1' step=2 ;;
            esac
            echo "box b${k}_$j in (x :: int 64, s :: int 64) out (y :: int 64, r :: int 64) match (x, s) -> ($expression, s + $step) ;"
            echo "wire $previous.y to b${k}_$j.x ;"
            echo "wire b${k}_$j.r to b${k}_$j.s initial $(($1 + 31 * k + 17 * j)) ;"
            previous=b${k}_$j
        done
        echo "stream c$k to \"c$k\" ;"
        echo "wire $previous.y to c$k ;"
    done
}
