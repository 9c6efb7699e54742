#compdef csplay play csplay-play
# Completions of zsh for csplay and for ./play, as `_csplay` in a folder of $fpath.
_csplay() {
    local -a own
    own=(
        '--listen[play the sound file after a successful run]'
        '--picture[draw the sound file as a PNG file beside it]'
        '--check[make all checks, and perform and write nothing]'
        '--format=gcc[with --check, print a refusal as FILE\:LINE\: error\: ..]'
        '--prove[prove all sources first]'
        '(- *)--help[print the options]'
        '(- *)--version[print the version and how csplay was built]'
        '--manual[show a page of the manual]:page:'
        '--install[copy program, manual and examples into a folder]:folder:_files -/'
    )
    [[ ${words[1]:t} == csplay ]] && own=()
    _arguments -s $own \
        '-j[number of workers]:workers:(1 2 4 8 16 32)' \
        '-o[name of the sound file]:sound file:_files' \
        '-n[write no sound file]' '-3[samples of 24 bits]' '-W' '-s' '-d' \
        '--turns[print the turns of each cycle]' '--pool' '--demo[play the demo of N notes]:notes:(1 100 1000 10000)' \
        '*:text:_files -g "*.(orc|sco|csd)"'
}
_csplay "$@"
