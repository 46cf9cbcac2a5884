# Prints the files and folders of an ISO 9660 image that have one of the sectors in a list, by what isoinfo says of the
# image. A folder ends with a slash: what is in it may be missing from isoinfo's list.
#     isoinfo -l -R -i IMAGE | awk -f hurt_files.awk LOST -
# LOST has a sector a line, counted from 0. Any awk will do.
NR == FNR { lost[$1 + 0]; next }
/^Directory listing of / { folder = substr($0, 22) }
/^[-d]/ && match($0, /\[ *[0-9]+ [0-9]+\]/) {
    first = substr($0, RSTART + 1) + 0
    name = substr($0, RSTART + RLENGTH + 2)
    sub(/ $/, "", name)
    if (name == "." || name == "..")
        next
    for (sector = first; sector < first + $5 / 2048; sector++)
        if (sector in lost) {
            print folder name (/^d/ ? "/" : "")
            break
        }
}
