# Prints a schedule that makes volumes of a pool of 4 + 1 disks and writes to the first, group by group; with snapshots=N then N groups that
# take a snapshot of it each, with clones=N that make a clone of the first snapshot each, with after=N that make those writes once more, and with
# destroys=N that destroy the last snapshots, one each; with reads=1 then a read of each place that was written. The pool's own blocks have
# meta=N metaslabs of 32 MiB, and 2 where that isn't given: what 5,000 volumes take there doesn't fit into 2. Where the plan that makes the volumes
# is refused (`refused 3 NoSpace`) no later group is committed either, so look for that before a time is believed. For example:
#   awk -v volumes=1 -v groups=100 -v writes=20 -v len=8192 -v size=67108864 -v block=8192 -v reads=0 -f docs/load.awk
BEGIN {
    print "pool 1 5 268435456 16 " (meta ? meta : 2)
    print "hold 1"
    for (v = 0; v < volumes; v++)
        printf "create 1 %d v%04d %d %d\n", v + 1, v, size, block
    print "release 1"
    print "sync"
    places = int(size / len)
    first = volumes + 1
    for (g = 0; g < groups; g++) {
        print "hold 1"
        for (k = 0; k < writes; k++) {
            n = first + g * writes + k
            printf "write 1 %d v0000 %d %d %02x\n", n, (n * 7 % places) * len, len, n % 251
        }
        print "release 1"
        print "sync"
    }
    n = first + groups * writes
    for (s = 0; s < snapshots; s++)
        printf "hold 1\nsnapshot 1 %d v0000 s%04d\nrelease 1\nsync\n", n++, s
    for (c = 0; c < clones; c++)
        printf "hold 1\nclone 1 %d v0000@s0000 c%04d\nrelease 1\nsync\n", n++, c
    for (g = 0; g < after; g++) {
        print "hold 1"
        for (k = 0; k < writes; k++)
            printf "write 1 %d v0000 %d %d %02x\n", n++, ((first + g * writes + k) * 7 % places) * len, len, n % 251
        print "release 1"
        print "sync"
    }
    for (d = 0; d < destroys; d++)
        printf "hold 1\ndestroy 1 %d v0000@s%04d\nrelease 1\nsync\n", n++, snapshots - 1 - d
    if (reads)
        for (k = 0; k < groups * writes; k++)
            printf "read v0000 %d %d\n", ((first + k) * 7 % places) * len, len
}
