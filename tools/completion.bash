# Completions of bash for csplay and for ./play: their options, and names of texts. `source tools/completion.bash`, or
# `./play --install DIR`, which puts this file where bash-completion finds it.
_csplay_texts() {
    COMPREPLY+=($(compgen -d -- "$1"))
    local ending
    for ending in orc sco csd; do COMPREPLY+=($(compgen -f -X "!*.$ending" -- "$1")); done
}

_csplay_words() {
    local word=${COMP_WORDS[COMP_CWORD]} before=${COMP_WORDS[COMP_CWORD - 1]}
    COMPREPLY=()
    case "$before" in
    -j) COMPREPLY=($(compgen -W "1 2 4 8 16 32" -- "$word")) ;;
    --demo) COMPREPLY=($(compgen -W "1 100 1000 10000" -- "$word")) ;;
    -o) COMPREPLY=($(compgen -f -- "$word")) ;;
    --install) COMPREPLY=($(compgen -d -- "$word")) ;;
    *)
        if [[ $word == -* ]]; then
            COMPREPLY=($(compgen -W "$1 -j -o -W -s -d -n -3 --turns --pool --demo --" -- "$word"))
        else
            _csplay_texts "$word"
        fi
        ;;
    esac
}

_csplay() { _csplay_words ""; }
_csplay_play() {
    _csplay_words "--listen --picture --check --format=gcc --prove --help --version --manual --install"
}
complete -o filenames -F _csplay csplay
complete -o filenames -F _csplay_play play ./play csplay-play
