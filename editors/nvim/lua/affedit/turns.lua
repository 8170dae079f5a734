-- Long work over a buffer, in turns with the editor.
local api = vim.api
local M = {}

-- So many calls of `pause` are one turn.
M.most_calls = 50

-- A function that gives the editor a turn each so many calls, for work that runs by `start`.
local function new_pause()
    local calls = 0
    return function()
        calls = calls + 1
        if calls % M.most_calls == 0 then
            coroutine.yield()
        end
    end
end

-- Runs `work(pause)` and calls `done` with what it returns: at once if it never pauses long enough. If the buffer changes, `done` gets nil.
function M.start(buf, work, done)
    local tick, routine = api.nvim_buf_get_changedtick(buf), coroutine.create(work)
    local pause = new_pause()
    local function step()
        if not api.nvim_buf_is_loaded(buf) or api.nvim_buf_get_changedtick(buf) ~= tick then
            done(nil)
            return
        end
        local is_right, result = coroutine.resume(routine, pause)
        if not is_right then
            error(result)
        elseif coroutine.status(routine) == 'dead' then
            done(result)
        else
            vim.defer_fn(step, 1)
        end
    end
    step()
end

return M
