" Sessions and policies of flaskd: copy the folders syntax and ftdetect into ~/.vim.

if exists('b:current_syntax')
    finish
endif
syntax case match

" A line that runs: a client, a manager, a call; or the administrator.
syntax match flaskdClient /^\s*[a-z][a-z0-9_]*\ze\s\+\(file\|process\|port\)\s/ nextgroup=flaskdManager skipwhite
syntax match flaskdManager /\<\(file\|process\|port\)\>/ contained nextgroup=flaskdCall skipwhite
syntax keyword flaskdCall contained begin end mkdir create open read write append close unlink list stat relabel give
syntax keyword flaskdCall contained fork exec signal exit wait attach peek poke detach bind connect recv push send unbind
syntax match flaskdAdmin /^\s*admin\s\+\(notify\|update\|ack\|force\)\>/

" What is there, and who acts.
syntax match flaskdDeclaration /^\s*\(context\|type\|attribute\|client\|dir\|audit\)\>/
syntax match flaskdDeclaration /^\s*initial\s\+\(root\|port\)\>/
syntax match flaskdDeclaration /^\s*file\ze\s\+\//
syntax match flaskdDeclaration /^\s*port\ze\s\+\d/

" Rules, with their classes and permissions.
syntax match flaskdRuleLine /^\s*\(allow\|withhold\|neverallow\|dontaudit\|auditallow\|transition\|member\)\s.*$/ contains=flaskdAllow,flaskdDeny,flaskdGive,flaskdClass,flaskdPermission,flaskdAll,flaskdForeign,flaskdOther
syntax match flaskdAllow /^\s*\(allow\|auditallow\)\>/ contained
syntax match flaskdDeny /^\s*\(withhold\|neverallow\|dontaudit\)\>/ contained
syntax match flaskdGive /^\s*\(transition\|member\)\>/ contained
syntax keyword flaskdClass contained file dir process port security
syntax keyword flaskdPermission contained read write append create unlink getattr relabelfrom relabelto search add_name remove_name
syntax keyword flaskdPermission contained fork signal ptrace exit wait name_bind recv send connect load_policy
syntax match flaskdPermission /\s\@<=transition\>/ contained
syntax match flaskdAll /\*\|\<self\>/ contained

" The lines that divide a text.
syntax match flaskdDivision /^\s*\(policy\s\+0*1\|version\|session\|run\)\s*$/

syntax match flaskdContext /\<[a-z][a-z0-9_]*:[a-z][a-z0-9_]*:[a-z][a-z0-9_]*\>/
syntax match flaskdNumber /\(^\|\s\)\@<=\d\{1,10}\(\s\|$\)\@=/
syntax match flaskdPath /\(^\|\s\)\@<=\/[A-Za-z0-9._\/-]*/
syntax match flaskdComment /^\s*#.*$/ contains=flaskdOther

" What may never stand there.
syntax match flaskdForeign /[;{}]/ contained
syntax match flaskdOther /[^\t -~]/

highlight default link flaskdClient Identifier
highlight default link flaskdManager Type
highlight default link flaskdCall Function
highlight default link flaskdAdmin PreProc
highlight default link flaskdDeclaration Keyword
highlight default link flaskdAllow Statement
highlight default link flaskdDeny Exception
highlight default link flaskdGive Statement
highlight default link flaskdClass Type
highlight default link flaskdPermission Constant
highlight default link flaskdAll Special
highlight default link flaskdDivision Title
highlight default link flaskdContext String
highlight default link flaskdNumber Number
highlight default link flaskdPath Directory
highlight default link flaskdComment Comment
highlight default link flaskdForeign Error
highlight default link flaskdOther Error

let b:current_syntax = 'flaskd'
