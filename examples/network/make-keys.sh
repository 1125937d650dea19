#!/bin/sh
# Makes a station's own authority and its keys, for tunnels whose both ends check each other (docs/use/network.md).
#
#   make-keys.sh [--days N] FOLDER NAME..          a key and a certificate of N days (730) for each name; in a new
#                                                  FOLDER the authority (3650 days) and the controller's key come
#                                                  first. Where a call was interrupted, the next one makes this key
#   make-keys.sh [--days N] --renew FOLDER NAME..  a new key for each name; the certificates before it stay accepted
#   make-keys.sh --latest FOLDER NAME..            from now on only the latest certificate of each name is accepted
#   make-keys.sh --revoke FOLDER NAME..            from now on no certificate of these names is accepted; their keys go
#
# A name is that of a till's or a dispensers' controller's machine, as till1: small letters, digits and hyphens. FOLDER
# gets
#   authority.key            signs all certificates, and never leaves this folder
#   authority.crt            what a till knows the controller by
#   NAME.key  NAME.crt       for the machine of that name alone; so also controller.key and controller.crt
#   accepted/NAME.pem        for the controller's machine: what it accepts as NAME
# Keys have mode 0600. Nothing is overwritten but what --renew, --latest and --revoke are asked to change.
# Status: 0 done, 1 it can't be done, 2 the words are wrong.
set -eu
umask 077
export LC_ALL=C

say() { printf 'make-keys.sh: %s\n' "$*" >&2; }
stop() {
    say "$*"
    exit 1
}
usage='usage: make-keys.sh [--days N] [--renew] FOLDER NAME.. | make-keys.sh --latest | --revoke FOLDER NAME..'
usage() {
    [ $# = 0 ] || say "$*"
    echo "$usage" >&2
    exit 2
}

is_there() { [ -e "$1" ] || [ -L "$1" ]; }

# Whether this can become a folder of keys: nothing is in it but what a call left there that failed at its first key.
is_unused() {
    [ -d "$1" ] || return 1
    case $(ls -A "$1") in
        '') ;;
        accepted) [ -d "$1/accepted" ] && [ -z "$(ls -A "$1/accepted")" ] ;;
        *) return 1 ;;
    esac
}

# What openssl is told to put into certificates; the machine's own openssl.cnf has no part in it.
settings() {
    cat <<END
[req]
distinguished_name = subject
x509_extensions = authority
prompt = no
[subject]
CN = $1
[authority]
basicConstraints = critical, CA:TRUE, pathlen:0
keyUsage = critical, keyCertSign
subjectKeyIdentifier = hash
[end]
basicConstraints = critical, CA:FALSE
keyUsage = critical, digitalSignature
extendedKeyUsage = $2
subjectAltName = DNS:$1
subjectKeyIdentifier = hash
authorityKeyIdentifier = keyid:always
END
}

# Runs openssl; what it says is shown only where it fails.
ssl() { openssl "$@" >"$new/said" 2>&1 || { cat "$new/said" >&2; stop "openssl $1 failed: nothing was made of it"; }; }

make_key() { ssl ecparam -name prime256v1 -genkey -noout -out "$new/$1.key"; }

make_authority() {
    settings "authority of a station" clientAuth >"$new/settings"
    make_key authority
    ssl req -x509 -new -config "$new/settings" -key "$new/authority.key" -sha256 -days 3650 -out "$new/authority.crt"
    chmod 644 "$new/authority.crt"
    mv "$new/authority.key" "$new/authority.crt" "$folder/"
    echo "made authority.key and authority.crt"
}

# A key and a certificate of one name: the controller's is good for the end that is connected to, all others for the end
# that connects.
make_one() {
    purpose=clientAuth
    [ "$1" != controller ] || purpose=serverAuth
    settings "$1" "$purpose" >"$new/settings"
    make_key "$1"
    ssl req -new -config "$new/settings" -key "$new/$1.key" -out "$new/request"
    ssl x509 -req -in "$new/request" -CA "$folder/authority.crt" -CAkey "$folder/authority.key" \
        -set_serial "0x$(openssl rand -hex 16)" -sha256 -days "$days" -extfile "$new/settings" -extensions end \
        -out "$new/$1.crt"
    chmod 644 "$new/$1.crt"
    if [ "$1" != controller ]; then
        accepted=$folder/accepted/$1.pem
        is_there "$accepted" || accepted=$folder/authority.crt
        accept "$1" "$accepted" "$new/$1.crt"
    fi
    mv -f "$new/$1.key" "$new/$1.crt" "$folder/"
    echo "made $1.key and $1.crt"
}

# Writes what is accepted as a name anew, from these files.
accept() {
    name=$1
    shift
    cat "$@" >"$new/accepted"
    chmod 644 "$new/accepted"
    mv -f "$new/accepted" "$folder/accepted/$name.pem"
}

settle_one() {
    accept "$1" "$folder/authority.crt" "$folder/$1.crt"
    echo "$1: only the latest certificate is accepted"
}

revoke_one() {
    accept "$1" "$folder/authority.crt"
    rm -f "$folder/$1.key" "$folder/$1.crt"
    echo "$1: no certificate is accepted"
}

# What can't be done is said before anything is changed.
look_at_name() {
    case $1 in
        authority | -* | *- | *[!a-z0-9-]* | '') usage "'$1' is no name" ;;
    esac
    [ "${#1}" -le 63 ] || usage "'$1' is too long a name"
    case $task in
        make)
            for file in "$folder/$1.key" "$folder/$1.crt"; do
                ! is_there "$file" || stop "$file is there: nothing is changed"
            done
            ;;
        renew) [ -f "$folder/$1.crt" ] || stop "there is no $folder/$1.crt: nothing is changed" ;;
        *)
            [ "$1" != controller ] || stop "tills know the controller by its authority: make all anew, in a new folder"
            [ -f "$folder/accepted/$1.pem" ] || stop "there is no $folder/accepted/$1.pem: nothing is changed"
            [ "$task" = revoke ] || [ -f "$folder/$1.crt" ] || stop "there is no $folder/$1.crt: nothing is changed"
            ;;
    esac
}

days=730 task=make
while [ $# -gt 0 ]; do
    case $1 in
        --days)
            [ $# -gt 1 ] || usage "--days wants a number"
            days=$2
            case $days in
                0* | *[!0-9]* | ?????* | '') usage "--days: 1 to 3650 is wanted, not '$days'" ;;
            esac
            [ "$days" -le 3650 ] || usage "--days: 1 to 3650 is wanted, not '$days'"
            shift
            ;;
        --renew | --latest | --revoke)
            [ "$task" = make ] || usage "one of --renew, --latest and --revoke at a time"
            task=${1#--}
            ;;
        --help)
            echo "$usage"
            exit 0
            ;;
        -*) usage "'$1' is no option" ;;
        *) break ;;
    esac
    shift
done
[ $# -gt 1 ] || usage
folder=$1
shift
if [ "$task" = make ] && ! is_there "$folder/controller.crt"; then
    case " $* " in
        *' controller '*) ;;
        *) set -- controller "$@" ;;
    esac
fi
for name in "$@"; do look_at_name "$name"; done
[ "$(printf '%s\n' "$@" | sort | uniq -d)" = '' ] || usage "a name stands there twice"
command -v openssl >/dev/null || stop "there is no openssl here"

first=''
if ! is_there "$folder/authority.crt" && [ "$task" = make ]; then
    if is_there "$folder" && ! is_unused "$folder"; then
        stop "$folder is there, and is neither empty nor a folder of keys"
    fi
    first=1
    mkdir -p "$folder/accepted"
    chmod 700 "$folder"
    chmod 755 "$folder/accepted"
fi
[ -d "$folder/accepted" ] || stop "$folder is no folder of keys"
new=$(mktemp -d "$folder/.new.XXXXXX")
trap 'rm -rf "$new"' EXIT
trap 'exit 1' HUP INT TERM
[ -z "$first" ] || make_authority
for name in "$@"; do
    case $task in
        make | renew) make_one "$name" ;;
        latest) settle_one "$name" ;;
        revoke) revoke_one "$name" ;;
    esac
done
