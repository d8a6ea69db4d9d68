" Starts the language server `hume server`, where `hume` is on the PATH: in Neovim by itself, in Vim by the plugin vim-lsp if it is there.
if exists('b:did_ftplugin')
  finish
endif
let b:did_ftplugin = 1

setlocal commentstring=--\ %s

if !executable('hume')
  finish
endif
if has('nvim')
  lua vim.lsp.start({ name = 'hume', cmd = { 'hume', 'server' }, root_dir = vim.fn.getcwd() })
elseif exists('g:lsp_loaded') && !exists('g:hume_server')
  let g:hume_server = 1
  call lsp#register_server({ 'name': 'hume', 'cmd': ['hume', 'server'], 'allowlist': ['hume'] })
endif
