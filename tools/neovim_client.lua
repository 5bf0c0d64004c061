-- Drives the language server by neovim's own client, and says what it saw. tools/drive_neovim starts it; SERVER has the words of the server.
vim.cmd('set shada= nomore')
local log = {}
local failures = 0
local function say(...)
  local line = string.format(...)
  table.insert(log, line)
  io.stdout:write(line, '\n')
end
local function check(what, ok)
  if not ok then failures = failures + 1 end
  say('%s %s', ok and 'ok  ' or 'FAIL', what)
end
local function wait(what, cond)
  check(what, (vim.wait(5000, cond, 10)))
end

local published = {}
local count = 0
local exit_code
local function on_publish(err, result, ctx, config)
  count = count + 1
  published[result.uri] = result
  vim.lsp.diagnostic.on_publish_diagnostics(err, result, ctx, config)
end

local dir = vim.fn.tempname()
vim.fn.mkdir(dir, 'p')
local path = dir .. '/migration \u{e9}\u{1F600}.sql'
vim.fn.writefile({ '-- \u{1F600}', '/* \u{1F600} */ create index i on t (a);', 'alter table t drop column b;' }, path)
vim.cmd('edit ' .. vim.fn.fnameescape(path))
local buf = vim.api.nvim_get_current_buf()
local uri = vim.uri_from_bufnr(buf)

local id = vim.lsp.start_client({
  name = 'lavkheto',
  cmd = vim.split(vim.env.SERVER, ' '),
  root_dir = dir,
  handlers = { ['textDocument/publishDiagnostics'] = on_publish },
  on_exit = function(code) exit_code = code end,
  on_error = function(code, err) failures = failures + 1; say('FAIL client error %s %s', tostring(code), vim.inspect(err)) end,
})
check('the client starts', id ~= nil)
vim.lsp.buf_attach_client(buf, id)
local client
wait('initialize is answered', function() client = vim.lsp.get_client_by_id(id); return client and client.initialized end)
say('capabilities %s', vim.json.encode(client.server_capabilities))
say('offset_encoding %s', tostring(client.offset_encoding))

local function list()
  local all = {}
  for _, d in ipairs(vim.diagnostic.get(buf)) do
    table.insert(all, string.format('%d:%d-%d:%d %s', d.lnum, d.col, d.end_lnum, d.end_col, d.code))
  end
  return all
end
local function settle(before) wait('diagnostics come', function() return count > before end) end

wait('diagnostics of the opened text come', function() return published[uri] ~= nil end)
say('uri %s', uri)
for _, line in ipairs(list()) do say('  %s', line) end
check('the index is marked behind the emoji (byte column 11)', vim.tbl_contains(list(), '1:11-1:35 require-concurrent-index-creation'))

local function actions(row, col)
  local params = { textDocument = { uri = uri }, range = { start = { line = row, character = col }, ['end'] = { line = row, character = col } },
    context = { diagnostics = {} } }
  local answer = vim.lsp.buf_request_sync(buf, 'textDocument/codeAction', params, 5000)
  return answer and answer[id] and answer[id].result or {}
end
local function titled(all, title)
  for _, a in ipairs(all) do if a.title == title then return a end end
end

local all = actions(1, 12)
for _, a in ipairs(all) do say('  action %s', a.title) end
local one = titled(all, 'Add `concurrently`')
check('a code action is offered', one ~= nil)
local before = count
-- as a user would: by the menu of code actions at the cursor
vim.ui.select = function(items, _, chosen)
  for i, item in ipairs(items) do
    local action = item[2] or item.action or item
    if action.title == 'Add `concurrently`' then return chosen(item, i) end
  end
end
vim.api.nvim_win_set_cursor(0, { 2, 12 })
vim.lsp.buf.code_action()
vim.wait(5000, function() return count > before end, 10)
local line = vim.api.nvim_buf_get_lines(buf, 1, 2, true)[1]
say('  line %s', line)
check('it is applied behind the emoji', line == '/* \u{1F600} */ create index concurrently i on t (a);')
settle(before)
for _, l in ipairs(list()) do say('  %s', l) end
check('the diagnostic is gone', not table.concat(list(), '\n'):find('require%-concurrent'))

local hover = vim.lsp.buf_request_sync(buf, 'textDocument/hover', { textDocument = { uri = uri }, position = { line = 2, character = 16 } }, 5000)
say('hover %s', vim.json.encode(hover[id].result))
check('hover tells the rule', hover[id].result.contents.value:find('ban%-drop%-column') ~= nil)
local scratch = vim.api.nvim_create_buf(false, true)
local shown = vim.lsp.util.stylize_markdown(scratch, vim.lsp.util.convert_input_to_markdown_lines(hover[id].result.contents), {})
check('it is shown without its fences', shown[1] == 'ban-drop-column' and not table.concat(shown, '\n'):find('```'))
check('it has the page of the rule', vim.tbl_contains(shown, '    ALTER TABLE users DROP COLUMN email;'))

local function set(lines)
  local b = count
  vim.api.nvim_buf_set_lines(buf, 0, -1, true, lines)
  settle(b)
  for _, l in ipairs(list()) do say('  %s', l) end
end
set({ 'select 1;', "select '\u{1F600}' from (;" })
check('a refused text has one diagnostic', #list() == 1)
set({ "select 'abc" })
check('an unterminated text has one diagnostic', #list() == 1)
set({ 'select 1;' })
check('a clean text has none', #list() == 0)
set({ "select 'a", "b'; drop table u;" })
check('no comment is offered inside of a string', titled(actions(1, 5), 'Ignore `ban-drop-table` here') == nil)
set({ 'drop table u;' })
check('a comment is offered above a line', titled(actions(0, 5), 'Ignore `ban-drop-table` here') ~= nil)
set({ 'create index i on t (a);', 'drop table u;' })

-- Applies the first action until there is none, as an eager user would.
local rounds = 0
while rounds < 40 do
  local found
  for row = 0, vim.api.nvim_buf_line_count(buf) - 1 do
    found = found or actions(row, 0)[1]
  end
  if not found then break end
  rounds = rounds + 1
  local b = count
  say('  apply %s', found.title)
  vim.lsp.util.apply_workspace_edit(found.edit, client.offset_encoding)
  settle(b)
end
for _, l in ipairs(vim.api.nvim_buf_get_lines(buf, 0, -1, true)) do say('  | %s', l) end
for _, l in ipairs(list()) do say('  %s', l) end
check('the fixes end', rounds < 40)
check('nothing is left to report', #list() == 0)

vim.cmd('silent write')
local unknown = vim.lsp.buf_request_sync(buf, 'textDocument/definition', { textDocument = { uri = uri }, position = { line = 0, character = 0 } }, 2000)
say('definition (not offered) %s', vim.inspect(unknown))
client.request('textDocument/hover', { textDocument = { uri = uri }, position = { line = 0, character = 0 } }, function() end)
client.notify('$/cancelRequest', { id = 999 })

-- A second document, then close the first.
local other = dir .. '/other.sql'
vim.fn.writefile({ 'drop table a;' }, other)
vim.cmd('badd ' .. other)
local second = vim.fn.bufnr(other)
vim.fn.bufload(second)
vim.lsp.buf_attach_client(second, id)
wait('the second document has its diagnostics', function() return published[vim.uri_from_bufnr(second)] ~= nil end)
say('  second %d', #vim.diagnostic.get(second))
before = count
vim.cmd('bdelete! ' .. buf)
settle(before)
check('a closed document has no diagnostics', #published[uri].diagnostics == 0)
check('the other one keeps its own', #published[vim.uri_from_bufnr(second)].diagnostics > 0)

client.stop()
wait('the server ends', function() return exit_code ~= nil end)
say('exit code %s', tostring(exit_code))
check('it ends in good order', exit_code == 0)
local errors = vim.fn.readfile(vim.lsp.get_log_path())
for _, l in ipairs(errors) do if l:find('ERROR') or l:find('WARN') then say('log %s', l) end end
say('%d failures', failures)
vim.cmd(failures == 0 and 'qall!' or 'cquit!')
