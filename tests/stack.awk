# Lines that take much stack: deep pairs, long texts, many brackets, floaters on long sequences.
BEGIN {
    deep = long = "A"
    for (i = 1; i < 4096; i++) deep = deep "["
    for (i = 1; i <= 128; i++) text = text "x"
    for (i = 1; i <= 31; i++) long = long "[" text "]"
    for (i = 1; i <= 8; i++) { open = open "["; close_ = close_ "]" }
    nested = "A"
    for (i = 1; i <= 64; i++) { nested = nested "[" open close_ "]"; many = many "[+1]" }
    for (i = 1; i <= 254; i++) all = all "A"
    print deep
    print long
    print nested
    print "A" many
    print "[+1]^8?" all
    print "[+1]^8?AAAAAAA"
    print "[+1]^4[+2]^4?" all
    print "[+1][+2][+3][+4][+5][+6][+7][+8]?" all
    print "(" all ")[+1][+2][+3][+4][+5][+6][+7][+8]"
    print "[a#a][b#b][c#c][d#d][e#e][f#f][g#g][h#h]?A[#a][#b]C[#b][#c]D[#c][#d]E[#d][#e]F[#e][#f]G[#f][#g]H[#g][#h]I[#h][#a]"
    print "[a#a][b#b][c#c][d#d][e#e][f#f][g#g][h#h]?A[#a][#h]C[#b][#h]D[#c][#h]E[#d][#h]F[#e][#h]G[#f][#h]H[#g][#h]" substr(all, 8)
    for (i = 1; i <= 8; i++) declared = declared "<[+1|x]@C,D,E,F,G,H,I,K,L,M,N,N-term,C-term,P,Q,A>"
    print declared all
    print declared "[+1]^8?" all
    print "<[" text "]@A>A" substr(many, 5)
    print "A[x|y|z|Obs:+1.5]"
    print "A[+1#a(0.5)]C[#a(-0.25)]-[UNIMOD:35]"
    for (i = 1; i <= 42; i++) sugars = sugars "Hex"
    for (i = 1; i <= 25; i++) counted = counted "Dec99"
    print "A[Glycan:" sugars "][Glycan:" counted "]"
    for (i = 1; i <= 30; i++) glycans = glycans "[Glycan:" counted "]"
    print "A" glycans
    print counted
    while (length(sugars) < 4000) sugars = sugars sugars
    print sugars
}
