" A screen: 16 lines of 64 characters. A line of 63 never runs into the next one.
if exists('b:did_ftplugin') | finish | endif
let b:did_ftplugin = 1
setlocal textwidth=0 colorcolumn=64,65 expandtab tabstop=2 shiftwidth=2 nowrap
setlocal iskeyword=33-126
setlocal comments= commentstring=(\ %s\ )
