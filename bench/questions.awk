# A script of puts and then questions of one kind, the same at each call.
# Variables: features, queries and kind, which is puts for none.
function place() { x = rand() * 350 - 175; y = rand() * 170 - 85 }
BEGIN {
    srand(7)
    print "create bench name:String:index=true,n:Integer,dtg:Date,*geom:Point"
    for (i = 1; i <= features; i++)
        printf "put bench f%d,n%d,%d,2020-%02d-%02dT%02d:00:00Z,POINT (%.7f %.7f)\n", i,
            rand() * 1000, rand() * 1000, 1 + rand() * 12, 1 + rand() * 28, rand() * 24,
            rand() * 360 - 180, rand() * 180 - 90
    for (i = 1; i <= queries; i++) {
        place()
        box = sprintf("BBOX(geom,%.7f,%.7f,%.7f,%.7f)", x, y, x + 5, y + 5)
        if (kind == "boxes") print "count bench " box
        if (kind == "rows") print "query bench " box
        if (kind == "weeks") print "count bench " box " AND dtg DURING 2020-03-01T00:00:00Z/2020-03-08T00:00:00Z"
    }
    # Such a question takes so little that it wants a hundred times as many.
    for (i = 1; i <= 100 * queries; i++) {
        if (kind == "attribute") printf "count bench name = 'n%d'\n", rand() * 1000
        if (kind == "identifier") printf "count bench IN ('f%d')\n", 1 + rand() * features
    }
    # Boxes of a thousandth of the world.
    for (i = 1; kind == "thousandths" && i <= queries; i++) {
        x = rand() * 348 - 180
        y = rand() * 174 - 90
        printf "count bench BBOX(geom,%.7f,%.7f,%.7f,%.7f)\n", x, y, x + 11.3842, y + 5.6921
    }
    # Twenty boxes that hold a tenth of the features each.
    for (i = 1; kind == "tenth" && i <= 20; i++) {
        x = rand() * 246 - 180
        y = rand() * 123 - 90
        printf "query bench BBOX(geom,%.7f,%.7f,%.7f,%.7f)\n", x, y, x + 113.842, y + 56.921
    }
}
