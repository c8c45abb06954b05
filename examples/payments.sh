#!/bin/sh
# A bank pays another one under a data key, and the payment comes twice. payments.sh [PROGRAM]
. "$(dirname "$0")/session.sh"

echo '# Two banks share the key-encrypting key K1, and a data key is sent.'
run 'x917 init --party BANKA --role bank --genkey 0123456789ABCDEFFEDCBA9876543210 --genseed 0000000000000001'
run 'x917 init --party BANKB --role bank --genkey 133457799BBCDFF1FEDCBA9876543210 --genseed 0000000000000002'
run 'x917 load --party BANKA --peer BANKB --label K1 --side out --key 0123456789ABCDEDFEDCBA9876543212'
run 'x917 load --party BANKB --peer BANKA --label K1 --side in --key 0123456789ABCDEDFEDCBA9876543212'
run 'x917 start --party BANKA --peer BANKB | x917 take --party BANKB | x917 take --party BANKA'

echo '# BANKA pays, and BANKB takes it in once.'
run 'x917 pay --party BANKA --peer BANKB --name BANKA.BANKA.K1.1 --ledger LEDA --amount 2500 > payment'
run 'cat payment'
run 'x917 accept --party BANKB --ledger LEDB < payment'
run 'x917 accept --party BANKB --ledger LEDB < payment'
