#!/bin/sh
# Writes clause files to measure solvers with: make-clause-files.sh FOLDER
#
# pigeons-N     N pigeons, N - 1 holes: one hole per pigeon at least, no two pigeons in a hole. No model.
# random-S      630 random clauses of three literals over 150 variables (4.2 clauses a variable), from seed S.
# product-N     Two factors of six bits, both above 1, whose product of twelve bits is N. A model exactly where N has such factors.
# parity-N      N bits summed modulo 2 along two chains in different orders, with different results. No model.
set -eu
folder=${1:?"usage: make-clause-files.sh FOLDER"}
mkdir -p "$folder"

for n in 4 5 6 7 8 9; do
    awk -v n="$n" 'BEGIN {
        holes = n - 1
        printf "p cnf %d %d\n", n * holes, n + holes * n * (n - 1) / 2
        for (p = 0; p < n; p++) {
            for (h = 1; h <= holes; h++) printf "%d ", p * holes + h
            print 0
        }
        for (h = 1; h <= holes; h++)
            for (p = 0; p < n; p++)
                for (q = p + 1; q < n; q++) printf "%d %d 0\n", -(p * holes + h), -(q * holes + h)
    }' >"$folder/pigeons-$n.cnf"
done

for seed in 1 2 3 4 5; do
    # The numbers of a linear congruence modulo 2^24, whose products an awk with 53 bits holds.
    awk -v seed="$seed" '
        function draw(below) {
            state = (state * 1140671 + 12820163) % 16777216
            return int(state / 16777216 * below)
        }
        BEGIN {
            state = seed * 7919
            vars = 150
            count = 630
            printf "p cnf %d %d\n", vars, count
            for (i = 0; i < count; i++) {
                do {
                    a = draw(vars) + 1
                    b = draw(vars) + 1
                    c = draw(vars) + 1
                } while (a == b || b == c || a == c)
                printf "%d %d %d 0\n", draw(2) ? a : -a, draw(2) ? b : -b, draw(2) ? c : -c
            }
        }' >"$folder/random-$seed.cnf"
done

for product in 2021 2491 3127 3599 2203 3881; do
    awk -v product="$product" '
        function clause(text) { lines[++clauses] = text " 0" }
        function fresh() { return ++vars }
        function and2(a, b,   z) {
            z = fresh()
            clause(-z " " a); clause(-z " " b); clause(z " " (-a) " " (-b))
            return z
        }
        function xor2(a, b,   z) {
            z = fresh()
            clause(-z " " a " " b); clause(-z " " (-a) " " (-b)); clause(z " " (-a) " " b); clause(z " " a " " (-b))
            return z
        }
        function or2(a, b) { return -and2(-a, -b) }
        BEGIN {
            bits = 6
            for (i = 0; i < bits; i++) x[i] = fresh()
            for (i = 0; i < bits; i++) y[i] = fresh()
            no = fresh(); clause(-no)
            for (i = 0; i < 2 * bits; i++) sum[i] = no
            for (i = 0; i < bits; i++) {
                carry = no
                for (j = 0; j < bits; j++) {
                    p = and2(x[j], y[i])
                    half = xor2(sum[i + j], p)
                    next_carry = or2(and2(sum[i + j], p), and2(half, carry))
                    sum[i + j] = xor2(half, carry)
                    carry = next_carry
                }
                sum[i + bits] = carry
            }
            for (i = 0; i < 2 * bits; i++) clause(int(product / 2 ^ i) % 2 ? sum[i] : -sum[i])
            text = ""; for (i = 1; i < bits; i++) text = text x[i] " "; clause(text)
            text = ""; for (i = 1; i < bits; i++) text = text y[i] " "; clause(text)
            printf "p cnf %d %d\n", vars, clauses
            for (i = 1; i <= clauses; i++) print lines[i]
        }' >"$folder/product-$product.cnf"
done

for n in 8 10 12 14; do
    awk -v n="$n" '
        function clause(text) { lines[++clauses] = text " 0" }
        function xor2(a, b,   z) {
            z = ++vars
            clause(-z " " a " " b); clause(-z " " (-a) " " (-b)); clause(z " " (-a) " " b); clause(z " " a " " (-b))
            return z
        }
        BEGIN {
            vars = n
            one = 1
            for (i = 2; i <= n; i++) one = xor2(one, i)
            # The second chain takes the odd bits first, then the even ones.
            two = 0
            for (step = 1; step >= 0; step--)
                for (i = 2 - step; i <= n; i += 2) two = two ? xor2(two, i) : i
            clause(one " " two); clause(-one " " (-two))
            printf "p cnf %d %d\n", vars, clauses
            for (i = 1; i <= clauses; i++) print lines[i]
        }' >"$folder/parity-$n.cnf"
done
