;;; try.el --- A session of dap-mode on examples/bill.ghc, in batch  -*- lexical-binding: t -*-
;; From the repository:  emacs -q --batch -l editors/emacs/try.el
;; It needs Debian's emacs-nox and elpa-dap-mode. What it told when it was recorded stands in session.txt.

(require 'cl-lib)
(setq load-prefer-newer nil native-comp-deferred-compilation nil)
(package-initialize)
(require 'dap-mode)
(require 'lsp-mode)
(setq lsp-auto-guess-root t
      dap-auto-configure-features nil
      dap-auto-show-output nil
      dap-print-io nil
      lsp-session-file (expand-file-name "fghc-lsp-session" temporary-file-directory)
      dap-breakpoints-file (expand-file-name "fghc-dap-breakpoints" temporary-file-directory))
(defconst try-here (file-name-directory (or load-file-name buffer-file-name)))
(load (expand-file-name "fghc-mode.el" try-here) nil t)

(defvar try-stops 0)
(add-hook 'dap-stopped-hook (lambda (_) (cl-incf try-stops)))

(defun try-say (&rest words) (princ (concat (apply #'format words) "\n")))

(defun try-wait (count)
  "Wait until so many stops were told, and shown."
  (let ((end (+ (float-time) 20)))
    (while (and (< try-stops count) (< (float-time) end)) (accept-process-output nil 0.05))
    (dotimes (_ 6) (accept-process-output nil 0.1))))

(defun try-ask (command arguments)
  "The answer to a request."
  (let ((answer nil) (end (+ (float-time) 10)))
    (dap--send-message (dap--make-request command arguments) (lambda (it) (setq answer it)) (dap--cur-session))
    (while (and (not answer) (< (float-time) end)) (accept-process-output nil 0.02))
    answer))

(defun try-where (what)
  (let ((frame (dap--debug-session-active-frame (dap--cur-session))))
    (try-say "%s: %s, at %s line %s" what (and frame (gethash "name" frame)) (buffer-name) (line-number-at-pos))))

(defun try-value (name)
  (gethash "result" (gethash "body" (try-ask "evaluate" (list :expression name :context "hover")))))

(defun try-thread () (dap--debug-session-thread-id (dap--cur-session)))

(let* ((file (expand-file-name "../../examples/bill.ghc" try-here)))
  (find-file file)
  (try-say "mode of bill.ghc: %s" major-mode)
  (goto-char (point-min))
  (re-search-forward "^price")
  (beginning-of-line)
  (dap-breakpoint-add)
  (dap-debug (list :type "ghcdb" :request "launch" :name "bill" :program file))
  (try-wait 1) (try-where "entry")
  (dap-continue (dap--cur-session) (try-thread))
  (try-wait 2) (try-where "continue to the breakpoint")
  (dap-step-in (dap--cur-session))
  (try-wait 3) (try-where "step in")
  (dap-next (dap--cur-session))
  (try-wait 4) (try-where "next")
  (dap-breakpoint-delete-all)
  (dap-continue (dap--cur-session) (try-thread))
  (try-wait 5) (try-where "continue to the end")
  (try-say "T = %s" (try-value "T"))
  (try-ask "setDataBreakpoints" (list :breakpoints (vector (list :dataId "_1_1"))))
  (fghc-reverse-continue)
  (try-wait 6) (try-where "back to who bound P")
  (fghc-step-back)
  (try-wait 7) (try-where "step back")
  (try-say "T = %s" (try-value "T"))
  (try-ask "setDataBreakpoints" (list :breakpoints (vector)))
  (try-ask "evaluate" (list :expression "step 1.1 3" :context "repl"))
  (try-wait 8) (try-where "step 1.1 3 in the console")
  (dap-continue (dap--cur-session) (try-thread))
  (try-wait 9) (try-where "continue to the end")
  (try-say "T = %s" (try-value "T"))
  (dap-disconnect (dap--cur-session))
  (accept-process-output nil 0.5))
