#!/bin/sh
# A bank is kept on two disks: one is lost, and an older one comes back. mirror.sh [PROGRAM]
. "$(dirname "$0")/session.sh"

echo '# BANKA is kept on two disks, and shares the key-encrypting key K1 with BANKB.'
run 'x917 init --party BANKA --mirror MIRA --role bank --genkey 0123456789ABCDEFFEDCBA9876543210 --genseed 0000000000000001'
run 'x917 init --party BANKB --role bank --genkey 133457799BBCDFF1FEDCBA9876543210 --genseed 0000000000000002'
run 'x917 load --party BANKA --mirror MIRA --peer BANKB --label K1 --side out --key 0123456789ABCDEDFEDCBA9876543212'
run 'x917 load --party BANKB --peer BANKA --label K1 --side in --key 0123456789ABCDEDFEDCBA9876543212'
run 'cp BANKA.x917 older'
run 'x917 start --party BANKA --mirror MIRA --peer BANKB | x917 take --party BANKB | x917 take --party BANKA --mirror MIRA'
run 'x917 compare --party BANKA --mirror MIRA'

echo '# The first disk is lost: the next command makes it anew of the second.'
run 'rm BANKA.x917'
run 'x917 compare --party BANKA --mirror MIRA'
run 'x917 show --party BANKA --mirror MIRA'
run 'x917 compare --party BANKA --mirror MIRA'

echo '# The second disk is lost: so is it.'
run 'rm MIRA.x917'
run 'x917 show --party BANKA --mirror MIRA > shown'
run 'x917 compare --party BANKA --mirror MIRA'

echo '# An older first disk comes back: it is removed before any command names both.'
run 'cp older BANKA.x917'
run 'x917 compare --party BANKA --mirror MIRA'
run 'rm BANKA.x917'
run 'x917 show --party BANKA --mirror MIRA'

echo '# Files of two parties are no pair.'
run 'x917 show --party BANKA --mirror BANKB'
