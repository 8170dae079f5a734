# What the scripts share that measure with dictionaries and texts of Debian's packages. Sourced with `top` set to the repository
# and in a folder that may be written. Packages are fetched into the folder `store`, if they are not there, and unpacked beside; nothing
# is installed.
store=${store:-$PWD/packages}
mkdir -p "$store"
store=$(cd "$store" && pwd)

# Fetches these packages.
fetch() {
    local package missing=()
    for package in "$@"; do
        compgen -G "$store/${package}_*.deb" > /dev/null || missing+=("$package")
    done
    [ ${#missing[@]} -eq 0 ] || (cd "$store" && apt-get download "${missing[@]}" > /dev/null 2>&1)
}

# Unpacks a package into a folder of its name.
unpack() {
    [ -d "$1" ] && return
    fetch "$1"
    dpkg-deb -x "$store/$1"_*.deb "$1"
}

# version PACKAGE: that of what was fetched.
version() { dpkg-deb -f "$store/$1"_*.deb Version; }

# The encoding of a dictionary, by its .aff file.
encoding_of() {
    LC_ALL=C awk 'NR == 1 { sub(/^\357\273\277/, "") } $1 == "SET" { sub(/\r$/, "", $2); print $2; found = 1; exit } END { if (!found) print "ISO8859-1" }' "$1"
}

# prepare AFF TO: writes TO.aff and TO.dic, which the program reads, by tools/prepare-dictionary, with --lossy where it refuses them
# otherwise. What was changed, or why they are refused, is kept in TO.changes, and the last reason to refuse them in TO.refused.
prepare() {
    local files=("$1" "${1%.aff}.dic" "$2")
    "${top:?}/tools/prepare-dictionary" "${files[@]}" > "$2.changes" 2> "$2.refused" \
        || "${top:?}/tools/prepare-dictionary" --lossy "${files[@]}" > "$2.changes" 2> "$2.refused.lossy" || { cat "$2.refused.lossy" > "$2.changes"; return 1; }
}

# The package with a text in the language of a dictionary, if there is one: LibreOffice's help, or manual pages.
text_package() {
    case $1 in
        ca*) echo libreoffice-help-ca ;;
        de_*) echo libreoffice-help-de ;;
        en_US) echo libreoffice-help-en-us ;;
        en_*) echo libreoffice-help-en-gb ;;
        hu_*) echo libreoffice-help-hu ;;
        nb_NO) echo manpages-nb ;;
        pt_BR) echo libreoffice-help-pt-br ;;
        ro_RO) echo manpages-ro ;;
        sr_RS) echo manpages-sr ;;
        uk_UA) echo manpages-uk ;;
        cs_* | da_* | dz | el_* | es* | et_* | eu | fr | gl_* | hi_* | id_* | it_* | ko | nl | pl_* | pt_PT | ru_* | sl_* | sv_* | tr_* | vi_*)
            echo "libreoffice-help-${1%%_*}"
            ;;
    esac
}

# The running text of a package or of a folder, without its markup: LibreOffice's help, manual pages and the Debian Reference.
running_text() {
    find "$1" -path '*/help/*/text/*' -name '*.html' -print0 | sort -z | xargs -0 -r cat \
        | sed 's/<script[^>]*>.*<\/script>//g; s/<[^>]*>/ /g; s/&[A-Za-z0-9#]*;/ /g'
    find "$1" -type f \( -path '*/man[1-8]/*.gz' -o -path '*/debian-reference/*.txt.gz' \) -print0 | sort -z | xargs -0 -r zcat \
        | sed "/^[.']/d; s/\\\\f[A-Z]//g; s/\\\\f([A-Z]*//g; s/\\\\-/-/g"
}
