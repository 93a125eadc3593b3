-- nvim-dap: a launch of `vapctl debug --dap` for a policy and a review
local dap = require('dap')
dap.adapters.celbpf = {type = 'executable', command = 'vapctl', args = {'debug', '--dap'}}
dap.configurations.json = {{
  type = 'celbpf', request = 'launch', name = 'a denial', cwd = '${workspaceFolder}',
  policy = 'policy.json', review = 'five.review.json',
}}
