" Appends keys to a line in the middle of the file, and reports the median time of a change and its redraw, with and without `spell`.
set nocompatible encoding=utf-8 noswapfile shortmess=atI lines=50 columns=100 spelllang=en_us
let s:keys = split(repeat(' people qzpeople houses wrqld', 100), '\zs')
let s:report = []
for s:spell in [0, 1]
    let &spell = s:spell
    execute line('$') / 2
    normal! zz
    redraw!
    let s:times = []
    for s:at in range($KEYS)
        let s:began = reltime()
        execute 'normal! A' . s:keys[s:at]
        redraw
        call add(s:times, reltimefloat(reltime(s:began)) * 1000)
        sleep 15m
    endfor
    call sort(s:times, 'f')
    call add(s:report, printf('Vim %d.%d, %s: median %.2f ms, one in ten below %.2f ms, nine below %.2f ms, of %d keys', v:version / 100, v:version % 100,
                \ s:spell ? 'spell' : 'plain', s:times[len(s:times) / 2], s:times[len(s:times) / 10],
                \ s:times[len(s:times) * 9 / 10], len(s:times)))
    undo
endfor
call writefile(s:report, $REPORT)
qall!
