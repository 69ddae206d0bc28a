# bash completion for the programs and tools of Lapyrei

_loop_cli() {
    local word=${COMP_WORDS[COMP_CWORD]} command=${COMP_WORDS[1]}
    COMPREPLY=()
    if [ "$COMP_CWORD" -eq 1 ]; then
        mapfile -t COMPREPLY < <(compgen -W "simulate format record list lock unlock upgrade export" -- "$word")
        return
    fi
    case $command,$COMP_CWORD in
        format,5) mapfile -t COMPREPLY < <(compgen -W "GREY YM12 YM16 YM24" -- "$word") ;;
        format,2 | list,2 | lock,2 | unlock,2 | upgrade,2 | export,2 | export,5) _loop_files "$word" ;;
        record,2) ;;
        record,4) mapfile -t COMPREPLY < <(compgen -W "keep=" -- "$word"; compgen -f -- "$word") ;;
        record,*) _loop_files "$word" ;;
    esac
}

_loop_files() {
    mapfile -t COMPREPLY < <(compgen -f -- "$1")
}

_loop_station() {
    local word=${COMP_WORDS[COMP_CWORD]}
    case $COMP_CWORD,$word in
        1,-*) mapfile -t COMPREPLY < <(compgen -W "--help --version" -- "$word") ;;
        1,*) _loop_files "$word" ;;
    esac
}

_loop_page() {
    local word=${COMP_WORDS[COMP_CWORD]}
    case $word in
        -*) mapfile -t COMPREPLY < <(compgen -W "--listen --token --name --make-token --settings --folder --notes --help --version" -- "$word") ;;
        *) _loop_files "$word" ;;
    esac
}

_loop_camera() {
    local word=${COMP_WORDS[COMP_CWORD]}
    case $word in
        -*) mapfile -t COMPREPLY < <(compgen -W "--list --fake --to --frames --chunks --set --state --log --help --version" -- "$word") ;;
        *) _loop_files "$word" ;;
    esac
}

_loop_setup() {
    local word=${COMP_WORDS[COMP_CWORD]}
    mapfile -t COMPREPLY < <(compgen -W "--list --check --fake --remove --camera --source --format --size --rate --exposure --gain --bits \
        --store-format --minutes --hours --keep --folder --page --no-page --release --no-release --group --no-group --no-picture --no-start --move-store --yes --help --version" -- "$word")
}

_store_info() {
    local word=${COMP_WORDS[COMP_CWORD]}
    COMPREPLY=()
    case $COMP_CWORD,$word in
        1,-*) mapfile -t COMPREPLY < <(compgen -W "--help --version" -- "$word") ;;
        1,*) _loop_files "$word" ;;
        2,*) mapfile -t COMPREPLY < <(compgen -W "last at --json" -- "$word") ;;
    esac
}

_store_picture() {
    local word=${COMP_WORDS[COMP_CWORD]}
    mapfile -t COMPREPLY < <(if [ "$COMP_CWORD" -eq 1 ]; then compgen -W "strip --help --version" -- "$word"; fi; compgen -f -- "$word")
}

_lapyrei_export() {
    local word=${COMP_WORDS[COMP_CWORD]}
    case $word in
        -*) mapfile -t COMPREPLY < <(compgen -W "--output --from --to --last --clip --events --rgb --luma --matrix --full-range \
            --lossless --compress --verify --force --quiet --help --version" -- "$word") ;;
        *) mapfile -t COMPREPLY < <(compgen -W "h5 zarr zarr3 ome-zarr tiff ome-tiff mkv mp4 png npy y4m csv" -- "$word"; compgen -f -- "$word") ;;
    esac
}

_loop_demo() {
    mapfile -t COMPREPLY < <(compgen -W "--port --keep --no-browser --power --help --version" -- "${COMP_WORDS[COMP_CWORD]}")
}

complete -F _loop_demo loop_demo
complete -o filenames -F _loop_cli loop_cli
complete -o filenames -F _loop_station loop_station
complete -o filenames -F _loop_page loop_page
complete -o filenames -F _loop_camera loop_camera
complete -F _loop_setup loop_setup
complete -o filenames -F _loop_station loop_mqtt loop_trigger loop_archive
complete -o filenames -F _store_info store_info
complete -o filenames -F _store_picture store_picture
complete -o filenames -F _lapyrei_export lapyrei-export
