;;; try-dape.el --- A session of dape on examples/bill.ghc, in batch  -*- lexical-binding: t -*-
;; From the repository:  emacs -q --batch -l editors/emacs/try-dape.el
;; It needs Emacs 29 or newer and dape, as Debian 13 has them: emacs-nox and elpa-dape.  What it told when it was recorded stands in
;; session-dape.txt.

(require 'cl-lib)
(package-initialize)
(require 'dape)
(setq dape-start-hook nil
      dape-stopped-hook nil
      dape-update-ui-hook nil
      dape-inlay-hints nil)
(defconst try-here (file-name-directory (or load-file-name buffer-file-name)))
(load (expand-file-name "fghc-mode.el" try-here) nil t)

(defvar try-stops 0)
(add-hook 'dape-stopped-hook (lambda () (cl-incf try-stops)))

(defun try-say (&rest words) (princ (concat (apply #'format words) "\n")))

(defun try-connection () (dape--live-connection 'parent t))

(defun try-wait (count)
  "Wait until so many stops were told, and shown."
  (let ((end (+ (float-time) 20)))
    (while (and (or (< try-stops count) (not (zerop (jsonrpc-continuation-count (try-connection))))) (< (float-time) end))
      (accept-process-output nil 0.02))
    (dotimes (_ 6) (accept-process-output nil 0.05))))

(defun try-ask (command arguments)
  "The answer to a request."
  (let ((answer nil) (end (+ (float-time) 10)))
    (dape-request (try-connection) command arguments (lambda (body _) (setq answer (or body t))))
    (while (and (not answer) (< (float-time) end)) (accept-process-output nil 0.02))
    answer))

(defun try-where (what)
  (let ((at dape--overlay-arrow-position))
    (try-say "%s: %s, at %s line %s" what (plist-get (dape--current-stack-frame (try-connection)) :name)
             (and (marker-buffer at) (buffer-name (marker-buffer at)))
             (and (marker-buffer at) (with-current-buffer (marker-buffer at) (line-number-at-pos at))))))

(defun try-value (name)
  (plist-get (try-ask :evaluate (list :expression name :context "hover")) :result))

(defun try-watch (&rest watched)
  "Watch variables, given as dape keeps them."
  (setq dape--data-breakpoints watched)
  (dape--set-data-breakpoints (try-connection) #'ignore))

(let* ((file (expand-file-name "../../examples/bill.ghc" try-here)))
  (find-file file)
  (try-say "mode of bill.ghc: %s" major-mode)
  (goto-char (point-min))
  (re-search-forward "^price")
  (beginning-of-line)
  (dape-breakpoint-toggle)
  (dape (dape--config-eval 'ghcdb nil))
  (try-wait 1) (try-where "entry")
  (dape-continue (try-connection))
  (try-wait 2) (try-where "continue to the breakpoint")
  (dape-step-in (try-connection))
  (try-wait 3) (try-where "step in")
  (dape-next (try-connection))
  (try-wait 4) (try-where "next")
  (dape-breakpoint-remove-all)
  (dape-continue (try-connection))
  (try-wait 5) (try-where "continue to the end")
  (try-say "T = %s" (try-value "T"))
  (try-watch '(:name "P" :dataId "_1_1" :accessType "write"))
  (fghc-reverse-continue)
  (try-wait 6) (try-where "back to who bound P")
  (fghc-step-back)
  (try-wait 7) (try-where "step back")
  (try-say "T = %s" (try-value "T"))
  (try-watch)
  (try-ask :evaluate (list :expression "step 1.1 3" :context "repl"))
  (try-wait 8) (try-where "step 1.1 3 in the console")
  (dape-continue (try-connection))
  (try-wait 9) (try-where "continue to the end")
  (try-say "T = %s" (try-value "T"))
  (dape-kill (try-connection))
  (accept-process-output nil 0.5))
