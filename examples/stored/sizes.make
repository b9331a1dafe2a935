# An object has 2,048 bytes at most, and an origin 65,536 bytes with its keys. What is full for one origin is not for another.
awk 'function object(bytes, text) { text = ""; while (bytes-- > 0) text = text "5a"; return text }
BEGIN {
    print "user open 0 http://shop.example/"
    print "user open 1 http://shop.example/again"
    print "user open 2 http://bank.example/"
    print "page 0.0 put a " object(2048)
    print "page 0.0 put a " object(2049)
    for (i = 0; i < 30; i++) printf "page %d.0 put %02d %s\n", i % 2, i, object(2046)
    print "page 0.0 put last " object(2044)
    print "page 1.0 put last " object(2043)
    print "page 0.0 put x -"
    for (i = 0; i < 31; i++) printf "page 2.0 put %02d %s\n", i, object(2046)
    print "page 2.0 put last " object(2045)
    print "page 2.0 put last " object(2044)
    print "page 2.0 put y -"
    print "page 0.0 put x -"
    print "store lose http://shop.example last 1"
    print "page 0.0 put x -"
    print "page 0.0 put last -"
    print "page 1.0 put x " object(2042)
    print "page 0.0 ask last"
    print "store answer 0.0 0 http://shop.example last 2"
    print "page 0.0 put y -"
}' > script
