;; dap-mode: a launch of `vapctl debug --dap` for a policy and a review
(require 'dap-mode)
(dap-register-debug-provider "celbpf"
  (lambda (conf) (plist-put conf :dap-server-path '("vapctl" "debug" "--dap"))))
(dap-register-debug-template "a denial"
  (list :type "celbpf" :request "launch" :name "a denial" :cwd "/srv/policies"
        :policy "policy.json" :review "five.review.json" :listing "/tmp/policy.lst"))
