;;; emacs.el --- Emacs' dap-mode, by the settings of docs/EDITORS.md  -*- lexical-binding: t; -*-
;; The environment says where things are: CQ_SETTINGS, CQ_SCRIPT, CQ_PORT, CQ_LUA and CQ_LOG.  In batch each line that is
;; written begins with "told".  cq-dap is in the PATH.
(defvar treemacs-text-scale nil)  ; which dap-mode 0.7 takes from a newer treemacs
(setq dap-auto-configure-features nil dap-auto-show-output nil enable-local-variables nil
      dap-breakpoints-file (expand-file-name "breakpoints" (getenv "HOME")))
(require 'dap-mode)
(load (getenv "CQ_SETTINGS"))

(defun tell (&rest args) (princ (concat "told " (apply #'format args) "\n")))

(defun until (what test)
  "Wait for TEST, at most 60 seconds, and end with WHAT if it is in vain."
  (let ((end (+ (float-time) 60)))
    (while (and (not (funcall test)) (< (float-time) end))
      (accept-process-output nil 0.05) (sit-for 0.01))
    (unless (funcall test) (error "In vain: %s" what))))

(defvar stops 0)
(add-hook 'dap-stopped-hook (lambda (&rest _) (setq stops (1+ stops))))
(defvar script (getenv "CQ_SCRIPT"))

(defun session () (dap--cur-session))
(defun frame () (dap--debug-session-active-frame (session)))
(defun place () (format "%s:%s" (gethash "name" (frame)) (gethash "line" (frame))))

(defun ask (command &rest arguments)
  "Send a request, and return the body of its response."
  (let (reply)
    (dap--send-message (dap--make-request command arguments) (lambda (message) (setq reply message)) (session))
    (until command (lambda () reply))
    (gethash "body" reply)))

(defun next-stop (act)
  "Call ACT, and tell where it leads."
  (let ((before stops))
    (funcall act)
    (until "a stop" (lambda () (and (> stops before) (frame))))
    (tell "stop at %s in %s" (place) (file-name-nondirectory (buffer-file-name)))))

(defun tell-locals ()
  (let* ((scopes (gethash "scopes" (ask "scopes" :frameId (gethash "id" (frame)))))
         (found (gethash "variables" (ask "variables" :variablesReference (gethash "variablesReference" (elt scopes 0))))))
    (mapc (lambda (one) (tell "%s = %s" (gethash "name" one) (gethash "value" one))) found)))

(defun start (name &rest more)
  "Debug by the template of this NAME, with MORE in it."
  (let ((template (copy-sequence (cdr (assoc name dap-debug-template-configurations)))))
    (while more
      (setq template (plist-put template (pop more) (pop more))))
    (dap-debug template)))

(defun start-attach (&rest more)
  (apply #'start "Cebdyraq: attach" :port (string-to-number (getenv "CQ_PORT")) more))

(defun try-attach ()
  (find-file script)
  (goto-char (point-min))
  (forward-line 4)  ; line 5
  (dap-breakpoint-add)
  (next-stop #'start-attach)
  (tell-locals)
  (dap-breakpoint-delete-all)
  (next-stop (lambda () (dap-next (session))))
  (next-stop (lambda () (dap-step-out (session))))
  (tell "n * 2 = %s" (gethash "result" (ask "evaluate" :expression "n * 2" :context "repl" :frameId (gethash "id" (frame)))))
  (dap-continue (session) (dap--debug-session-thread-id (session)))
  (until "that it runs" (lambda () (eq 'running (dap--debug-session-state (session)))))
  (tell "state %s" (dap--debug-session-state (session)))
  (let ((it (session)))
    (dap-disconnect it)
    (until "the end" (lambda () (not (dap--session-running it))))
    (tell "disconnected")))

(defun try-launch ()
  (find-file script)
  (start "Cebdyraq: launch" :runtimeExecutable (getenv "CQ_LUA"))
  (let ((it (session)))
    (until "the end" (lambda () (not (dap--session-running it))))
    (with-current-buffer (dap--debug-session-output-buffer it)
      (mapc (lambda (line) (tell "output %s" line)) (split-string (buffer-string) "\n" t)))))

(defun show-attach ()
  "Attach on the screen, and show variables at each stop.  F9 steps."
  (setq inhibit-startup-screen t)
  (require 'dap-ui)
  (menu-bar-mode -1)
  (dap-ui-mode 1)
  (add-hook 'dap-stopped-hook (lambda (&rest _) (run-with-timer 1 nil #'dap-ui-locals)))
  (global-set-key (kbd "<f9>") #'dap-next)
  (find-file script)
  (goto-char (point-min))
  (forward-line 4)
  (dap-breakpoint-add)
  (start-attach :dap-server-path (list "cq-dap" "--log" (getenv "CQ_LOG"))))
;;; emacs.el ends here
