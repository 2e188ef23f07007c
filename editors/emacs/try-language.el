;;; try-language.el --- what eglot tells of a wrong program, and where it finds a predicate  -*- lexical-binding: t -*-

;;; Commentary:
;; emacs -q --batch -l editors/emacs/try-language.el FILE LINE LETTER writes each diagnostic as LINE:LETTER TEXT, and then
;; where the place that is named leads.

;;; Code:

(require 'eglot)
(require 'flymake)
(load (expand-file-name "fghc-mode.el" (file-name-directory load-file-name)) nil t)

(defvar eglot-sync-connect)
(defconst seconds 120 "How long is waited for the server.")

(defun told (diagnostic)
  "A line about DIAGNOSTIC."
  (goto-char (flymake-diagnostic-beg diagnostic))
  (format "%d:%d %s\n" (line-number-at-pos) (current-column) (flymake-diagnostic-text diagnostic)))

(let ((eglot-sync-connect seconds) (line (string-to-number (nth 1 command-line-args-left))))
  (find-file (car command-line-args-left))
  (apply #'eglot (eglot--guess-contact))
  (with-timeout (seconds) (while (null (flymake-diagnostics)) (accept-process-output nil 0.1)))
  (mapc (lambda (diagnostic) (princ (told diagnostic))) (flymake-diagnostics))
  (goto-char (point-min))
  (forward-line (1- line))
  (forward-char (string-to-number (nth 2 command-line-args-left)))
  (let ((place (xref-item-location (car (xref-backend-definitions 'eglot (xref-backend-identifier-at-point 'eglot))))))
    (princ (format "%d:%d\n" (xref-file-location-line place) (xref-file-location-column place))))
  (kill-emacs))

;;; try-language.el ends here
