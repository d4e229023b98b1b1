# shellcheck shell=sh
# For scripts that take files: paths as Windows has them.

# linux_path WORD : the file that a path of Windows stands for, as WSL mounts its drive; another word as it is. It fails with a sentence if the drive isn't there. KAZDRIN_DRIVES is where drives are
# mounted (/mnt).
linux_path() {
    case $1 in
        [A-Za-z]:[\\/]*) ;;
        *)
            printf '%s\n' "$1"
            return
            ;;
    esac
    drive=${KAZDRIN_DRIVES:-/mnt}/$(printf %.1s "$1" | tr '[:upper:]' '[:lower:]')
    path=$drive/$(printf %s "${1#??[\\/]}" | tr '\134' /)
    if [ -d "$drive" ]; then
        printf '%s\n' "$path"
    else
        printf '%s\n' "$1 is a path of Windows: under WSL it is $path, and there is no $drive here" >&2
        return 2
    fi
}
