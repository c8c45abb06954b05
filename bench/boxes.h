/* The S-boxes of DES as circuits: gates of two inputs, and, or, exclusive or, and one value without another. BOX_N puts the outputs of
   box N for the inputs A to F, the first bit first, on top of W to Z, by exclusive or; those that COMPLEMENTED_N has, the first
   highest, are put there complemented. Found by boxes.c; codes.c compares what they give with the tables. */

/* 57 gates */
#define BOX_1(V, A, B, C, D, E, F, W, X, Y, Z) \
    do { \
        V a = A, b = B, c = C, d = D, e = E, f = F; \
        V g1 = c | a; V g2 = g1 & d; V g3 = d ^ a; V g4 = g3 & ~c; V g5 = f & ~g4; V g6 = g2 ^ g5; V g7 = g6 ^ c; \
        V g8 = g1 ^ f; V g9 = g8 & ~g7; V g10 = e | g9; V g11 = g1 & ~g5; V g12 = g10 ^ f; V g13 = g11 & ~g12; \
        V g14 = g2 & e; V g15 = g13 ^ g3; V g16 = g14 | g15; V g17 = c & ~g16; V g18 = g13 ^ g17; V g19 = a & ~g5; \
        V g20 = g15 ^ g7; V g21 = g20 & ~g19; V g22 = f ^ d; V g23 = g22 & ~g9; V g24 = g3 & ~f; V g25 = g23 | g18; \
        V g26 = g25 ^ g21; V g27 = g24 ^ g12; V g28 = g18 | b; V g29 = g28 ^ g10; V g30 = g29 ^ g6; V g31 = d & ~c; \
        V g32 = g31 | g28; V g33 = g27 & ~g32; V g34 = g30 ^ g25; V g35 = g27 | c; V g36 = g35 ^ g26; \
        V g37 = g34 ^ g36; V g38 = e & g37; V g39 = g34 ^ g38; V g40 = g15 ^ g11; V g41 = g40 | g9; \
        V g42 = e & g41; V g43 = g26 ^ g42; V g44 = g39 ^ c; V g45 = g44 | g27; V g46 = g45 & ~b; \
        V g47 = g43 ^ g46; V g48 = g33 ^ g21; V g49 = g48 ^ b; V g50 = g47 | b; V g51 = g50 & ~g23; \
        V g52 = e & g51; V g53 = g49 ^ g52; V g54 = g12 & ~g40; V g55 = g54 | g32; V g56 = g55 & ~b; \
        V g57 = g39 ^ g56; \
        W ^= g30; X ^= g57; Y ^= g47; Z ^= g53; \
    } while (0)
enum { COMPLEMENTED_1 = 14 };

/* 51 gates */
#define BOX_2(V, A, B, C, D, E, F, W, X, Y, Z) \
    do { \
        V a = A, b = B, c = C, d = D, e = E, f = F; \
        V g1 = e | a; V g2 = b ^ a; V g3 = g1 & ~g2; V g4 = g3 ^ e; V g5 = b & ~g4; V g6 = f & ~g5; V g7 = f ^ a; \
        V g8 = g5 | f; V g9 = e & g8; V g10 = g9 | f; V g11 = b & ~g10; V g12 = f & e; V g13 = g7 ^ e; \
        V g14 = g12 ^ b; V g15 = g13 ^ d; V g16 = g15 & ~g6; V g17 = g16 & ~a; V g18 = g17 ^ g14; V g19 = g9 | g7; \
        V g20 = g11 | g7; V g21 = g20 ^ g19; V g22 = g19 ^ g4; V g23 = g18 | b; V g24 = g23 & ~d; \
        V g25 = g22 ^ g24; V g26 = c | g21; V g27 = g25 ^ g26; V g28 = g13 & g2; V g29 = g6 ^ g3; V g30 = g29 | g7; \
        V g31 = g30 & ~g9; V g32 = c | g31; V g33 = g29 ^ g32; V g34 = g28 ^ g10; V g35 = g34 & g23; \
        V g36 = d & ~g35; V g37 = g33 ^ g36; V g38 = g15 | g11; V g39 = g38 ^ g8; V g40 = g10 ^ b; V g41 = g12 & d; \
        V g42 = g40 ^ g41; V g43 = g42 & ~c; V g44 = g39 ^ g43; V g45 = e | d; V g46 = g45 ^ g18; \
        V g47 = g1 & ~g25; V g48 = g28 | g17; V g49 = g47 | g48; V g50 = g49 & ~c; V g51 = g46 ^ g50; \
        W ^= g27; X ^= g44; Y ^= g51; Z ^= g37; \
    } while (0)
enum { COMPLEMENTED_2 = 15 };

/* 56 gates */
#define BOX_3(V, A, B, C, D, E, F, W, X, Y, Z) \
    do { \
        V a = A, b = B, c = C, d = D, e = E, f = F; \
        V g1 = d & a; V g2 = f ^ d; V g3 = g1 | g2; V g4 = g2 & a; V g5 = g4 ^ d; V g6 = e & g5; V g7 = g3 ^ g6; \
        V g8 = g4 & ~d; V g9 = g8 ^ e; V g10 = c & g9; V g11 = g7 ^ g10; V g12 = f ^ c; V g13 = ~g9 & a; \
        V g14 = ~g12 & g13; V g15 = b | g14; V g16 = g11 ^ g15; V g17 = g8 ^ f; V g18 = b | g17; V g19 = g18 & g16; \
        V g20 = c & b; V g21 = g19 & ~g20; V g22 = a | g21; V g23 = g22 ^ b; V g24 = g16 | g5; V g25 = g23 & ~g24; \
        V g26 = f | g25; V g27 = g2 ^ e; V g28 = g27 ^ c; V g29 = ~g24 & f; V g30 = a | g29; V g31 = g28 ^ g30; \
        V g32 = g26 | g16; V g33 = g13 | g5; V g34 = c & g33; V g35 = g32 ^ g34; V g36 = b | g35; \
        V g37 = g31 ^ g36; V g38 = g22 ^ g18; V g39 = g38 ^ g12; V g40 = ~g17 & c; V g41 = g37 | g30; \
        V g42 = ~d & g41; V g43 = g40 ^ g42; V g44 = e & ~g43; V g45 = g39 ^ g44; V g46 = g23 ^ g5; \
        V g47 = g39 ^ g26; V g48 = g46 ^ g47; V g49 = g39 ^ g37; V g50 = g49 & ~g2; V g51 = g48 & a; \
        V g52 = g51 ^ g2; V g53 = c & ~g52; V g54 = g50 ^ g53; V g55 = e | g54; V g56 = g48 ^ g55; \
        W ^= g37; X ^= g45; Y ^= g56; Z ^= g16; \
    } while (0)
enum { COMPLEMENTED_3 = 10 };

/* 42 gates */
#define BOX_4(V, A, B, C, D, E, F, W, X, Y, Z) \
    do { \
        V a = A, b = B, c = C, d = D, e = E, f = F; \
        V g1 = d ^ c; V g2 = g1 ^ a; V g3 = g1 | a; V g4 = g3 & d; V g5 = e | g4; V g6 = g2 ^ g5; V g7 = g4 ^ g2; \
        V g8 = ~g7 & c; V g9 = ~g1 & a; V g10 = ~e & g9; V g11 = g8 ^ g10; V g12 = b | g11; V g13 = g6 ^ g12; \
        V g14 = ~g9 & e; V g15 = ~g7 & d; V g16 = g14 ^ g15; V g17 = g13 ^ a; V g18 = g17 | g8; V g19 = ~b & g18; \
        V g20 = g16 ^ g19; V g21 = g13 ^ g20; V g22 = g21 & ~f; V g23 = g22 ^ g20; V g24 = g23 ^ f; \
        V g25 = g23 ^ g21; V g26 = ~g11 & g3; V g27 = g16 & b; V g28 = g26 ^ g27; V g29 = ~g21 & g18; \
        V g30 = g29 | g19; V g31 = e | g30; V g32 = g28 ^ g31; V g33 = g15 ^ b; V g34 = c & ~g27; \
        V g35 = g33 ^ g34; V g36 = g16 & ~b; V g37 = e & g36; V g38 = g35 ^ g37; V g39 = f & ~g38; \
        V g40 = g32 ^ g39; V g41 = g40 ^ g38; V g42 = g41 ^ f; \
        W ^= g40; X ^= g42; Y ^= g24; Z ^= g25; \
    } while (0)
enum { COMPLEMENTED_4 = 7 };

/* 54 gates */
#define BOX_5(V, A, B, C, D, E, F, W, X, Y, Z) \
    do { \
        V a = A, b = B, c = C, d = D, e = E, f = F; \
        V g1 = f ^ a; V g2 = c ^ b; V g3 = g1 ^ g2; V g4 = a & ~c; V g5 = e & ~g4; V g6 = g3 ^ g5; V g7 = f & c; \
        V g8 = g7 | a; V g9 = g8 & ~g3; V g10 = b | g9; V g11 = g8 ^ g10; V g12 = c ^ a; V g13 = g12 & g1; \
        V g14 = g13 & ~e; V g15 = g11 ^ g14; V g16 = d | g15; V g17 = g6 ^ g16; V g18 = g12 ^ d; V g19 = g17 | g1; \
        V g20 = g18 ^ g19; V g21 = g13 | d; V g22 = g18 & ~c; V g23 = g21 ^ g22; V g24 = g23 & ~e; \
        V g25 = g20 ^ g24; V g26 = g24 | d; V g27 = g9 | g5; V g28 = g26 & g27; V g29 = g28 | b; V g30 = g8 ^ g2; \
        V g31 = g10 & ~g2; V g32 = g25 ^ g3; V g33 = g31 | g32; V g34 = g33 & ~e; V g35 = g30 ^ g34; \
        V g36 = g29 ^ g25; V g37 = g35 ^ g10; V g38 = g37 ^ b; V g39 = g38 & ~e; V g40 = g36 ^ e; \
        V g41 = g39 | g13; V g42 = g40 | g41; V g43 = g36 & ~g2; V g44 = g39 ^ g32; V g45 = g43 ^ g44; \
        V g46 = g42 & ~d; V g47 = g45 ^ g46; V g48 = g36 | a; V g49 = g48 & ~f; V g50 = g40 ^ g12; \
        V g51 = b & ~g50; V g52 = g49 ^ g51; V g53 = d | g52; V g54 = g35 ^ g53; \
        W ^= g36; X ^= g17; Y ^= g54; Z ^= g47; \
    } while (0)
enum { COMPLEMENTED_5 = 2 };

/* 58 gates */
#define BOX_6(V, A, B, C, D, E, F, W, X, Y, Z) \
    do { \
        V a = A, b = B, c = C, d = D, e = E, f = F; \
        V g1 = f ^ a; V g2 = b ^ a; V g3 = g1 & ~g2; V g4 = f | a; V g5 = g4 & ~g2; V g6 = g3 ^ g5; V g7 = c & ~g6; \
        V g8 = g3 ^ g7; V g9 = c & ~f; V g10 = g2 & g1; V g11 = g10 & ~g9; V g12 = e | g11; V g13 = g8 ^ g12; \
        V g14 = g1 ^ b; V g15 = g10 & a; V g16 = c & ~g15; V g17 = g14 ^ g16; V g18 = g16 & a; V g19 = c & ~g18; \
        V g20 = e & ~g19; V g21 = g17 ^ g20; V g22 = g13 ^ g21; V g23 = e & ~c; V g24 = g23 | g6; V g25 = a & ~g24; \
        V g26 = g21 | g9; V g27 = g25 ^ e; V g28 = g26 ^ g27; V g29 = g12 & ~d; V g30 = g29 ^ g22; V g31 = e ^ a; \
        V g32 = g28 & d; V g33 = g31 ^ g32; V g34 = g30 ^ g33; V g35 = g34 & ~f; V g36 = g4 & e; V g37 = g28 ^ g8; \
        V g38 = g37 ^ f; V g39 = g36 | g28; V g40 = b & g39; V g41 = g38 ^ g40; V g42 = g27 & ~g10; \
        V g43 = g42 & g14; V g44 = d & ~g43; V g45 = g41 ^ g44; V g46 = g35 ^ g30; V g47 = g36 ^ b; \
        V g48 = c & ~g47; V g49 = g46 ^ g48; V g50 = g22 | d; V g51 = g50 ^ g13; V g52 = e | c; V g53 = g17 | g10; \
        V g54 = g53 & ~g20; V g55 = f & g54; V g56 = g52 ^ g55; V g57 = g56 & ~d; V g58 = g28 ^ g57; \
        W ^= g58; X ^= g51; Y ^= g45; Z ^= g49; \
    } while (0)
enum { COMPLEMENTED_6 = 12 };

/* 54 gates */
#define BOX_7(V, A, B, C, D, E, F, W, X, Y, Z) \
    do { \
        V a = A, b = B, c = C, d = D, e = E, f = F; \
        V g1 = c | b; V g2 = d ^ a; V g3 = g1 ^ g2; V g4 = b & a; V g5 = g2 ^ c; V g6 = g4 & g5; V g7 = f & ~g6; \
        V g8 = g3 ^ g7; V g9 = d & ~c; V g10 = d & b; V g11 = f & g10; V g12 = g9 ^ g11; V g13 = g9 ^ b; \
        V g14 = f & g13; V g15 = a & g14; V g16 = g12 ^ g15; V g17 = e | g16; V g18 = g8 ^ g17; V g19 = ~g18 & g16; \
        V g20 = g1 ^ e; V g21 = g19 ^ g20; V g22 = g18 ^ c; V g23 = c ^ b; V g24 = g22 ^ g23; V g25 = ~d & g24; \
        V g26 = g22 ^ g25; V g27 = ~a & g26; V g28 = g10 ^ g5; V g29 = g26 | g9; V g30 = g28 ^ g29; \
        V g31 = g30 & ~f; V g32 = g31 ^ g27; V g33 = g32 ^ g21; V g34 = g28 ^ g27; V g35 = g28 & ~g4; \
        V g36 = g35 ^ d; V g37 = ~g34 & g30; V g38 = e | g37; V g39 = g36 ^ g38; V g40 = g24 & a; V g41 = g26 ^ g6; \
        V g42 = c & ~g41; V g43 = g40 ^ g42; V g44 = f | g43; V g45 = g39 ^ g44; V g46 = g20 & g10; \
        V g47 = g34 ^ g16; V g48 = g46 ^ g47; V g49 = g45 ^ g20; V g50 = g42 ^ g18; V g51 = d | g50; \
        V g52 = g49 ^ g51; V g53 = ~f & g52; V g54 = g48 ^ g53; \
        W ^= g45; X ^= g33; Y ^= g54; Z ^= g18; \
    } while (0)
enum { COMPLEMENTED_7 = 4 };

/* 54 gates */
#define BOX_8(V, A, B, C, D, E, F, W, X, Y, Z) \
    do { \
        V a = A, b = B, c = C, d = D, e = E, f = F; \
        V g1 = e ^ b; V g2 = d & ~b; V g3 = c & ~g2; V g4 = g1 ^ g3; V g5 = e | c; V g6 = g3 ^ d; V g7 = g5 ^ g6; \
        V g8 = f & ~g7; V g9 = g4 ^ g8; V g10 = f ^ e; V g11 = g10 & g7; V g12 = g1 ^ c; V g13 = g12 | g7; \
        V g14 = ~b & g13; V g15 = g11 ^ g14; V g16 = ~a & g15; V g17 = g9 ^ g16; V g18 = g17 ^ g15; V g19 = g6 & b; \
        V g20 = g17 ^ a; V g21 = g19 ^ g20; V g22 = e & ~g21; V g23 = g18 ^ g22; V g24 = ~g17 & g12; \
        V g25 = ~g14 & a; V g26 = g24 | g25; V g27 = g17 ^ g5; V g28 = g27 | g19; V g29 = ~d & g28; \
        V g30 = g26 ^ g29; V g31 = ~f & g30; V g32 = g23 ^ g31; V g33 = g14 | g10; V g34 = g33 ^ a; \
        V g35 = g28 | e; V g36 = ~c & g35; V g37 = g34 ^ g36; V g38 = g33 | g31; V g39 = g17 & ~e; \
        V g40 = g39 | g16; V g41 = b | g40; V g42 = g38 ^ g41; V g43 = d | g42; V g44 = g37 ^ g43; \
        V g45 = g18 | g8; V g46 = g34 & ~g7; V g47 = g45 ^ g46; V g48 = ~g37 & a; V g49 = ~g40 & d; \
        V g50 = g49 ^ g47; V g51 = c & ~g50; V g52 = g48 ^ g51; V g53 = ~b & g52; V g54 = g47 ^ g53; \
        W ^= g32; X ^= g17; Y ^= g54; Z ^= g44; \
    } while (0)
enum { COMPLEMENTED_8 = 13 };
