;;; fghc-mode.el --- Flat GHC: colours, indentation, what is wrong, and ghcdb by dap-mode or dape  -*- lexical-binding: t -*-

;;; Commentary:
;; (load "REPOSITORY/editors/emacs/fghc-mode.el") in the init file; of Debian's package, (require 'fghc-mode).
;; Then visit a .ghc file whose comment has a line `% Query: ..':
;; with dap-mode, M-x dap-debug, "Flat GHC"; with dape, M-x dape, ghcdb.
;; What is wrong with it, its predicates, where one is defined: M-x eglot, or M-x lsp with lsp-mode.
;; Forwards: the commands of dap-mode or dape.  Back: fghc-step-back, fghc-reverse-continue (C-c C-b, C-c C-r).
;; The mode is called fghc, since ghc means Haskell to many.

;;; Code:

(defgroup fghc nil "Flat GHC." :group 'languages)

(defun fghc--part (file word)
  "What starts a part of ghcdb, as a list of words.
It is FILE of the repository, else the ghcdb on the path with WORD."
  (let ((beside (expand-file-name (concat "../" file) (file-name-directory (or load-file-name buffer-file-name)))))
    (if (file-exists-p beside) (list "node" beside) (list "ghcdb" word))))

(defcustom fghc-adapter (fghc--part "ghcdb-adapter" "--dap")
  "The debug adapter: its program and its words."
  :type '(repeat string))

(defcustom fghc-server (fghc--part "ghcdb-lsp" "--lsp")
  "The language server: its program and its words."
  :type '(repeat string))

(defvar fghc-mode-syntax-table
  (let ((table (make-syntax-table)))
    (modify-syntax-entry ?% "<" table)
    (modify-syntax-entry ?\n ">" table)
    (modify-syntax-entry ?_ "w" table)
    (modify-syntax-entry ?' "." table)
    (modify-syntax-entry ?\" "." table)
    table))

(defvar fghc-font-lock-keywords
  '(("^[a-z][A-Za-z0-9_]*" . font-lock-function-name-face)
    ("\\_<\\(?:true\\|wait\\|integer\\|atom\\|list\\|instream\\)\\_>" . font-lock-builtin-face)
    ("\\_<mod\\_>\\|:-\\||" . font-lock-keyword-face)
    ("\\_<[A-Z_][A-Za-z0-9_]*" . font-lock-variable-name-face)
    ("\\_<[0-9]+\\_>" . font-lock-constant-face)))

(defvar fghc-mode-map
  (let ((map (make-sparse-keymap)))
    (define-key map (kbd "C-c C-b") #'fghc-step-back)
    (define-key map (kbd "C-c C-r") #'fghc-reverse-continue)
    map))

(defcustom fghc-indent 4
  "How far a clause that goes on in the next line is indented."
  :type 'integer)

(defun fghc--goes-on-p ()
  "Does a clause that began above go on in this line?"
  (save-excursion
    (beginning-of-line)
    (forward-comment (- (point)))
    (not (or (bobp) (eq (char-before) ?.)))))

(defun fghc-indent-line ()
  "Indent the line, if a clause that began above goes on in it."
  (let ((column (if (fghc--goes-on-p) fghc-indent 0)))
    (if (<= (current-column) (current-indentation))
        (indent-line-to column)
      (save-excursion (indent-line-to column)))))

(defun fghc--index ()
  "The predicates, each with the place of its first clause, for imenu."
  (let (found)
    (goto-char (point-min))
    (while (re-search-forward "^[a-z][A-Za-z0-9_]*" nil t)
      (unless (assoc (match-string-no-properties 0) found)
        (push (cons (match-string-no-properties 0) (match-beginning 0)) found)))
    (nreverse found)))

;;;###autoload
(define-derived-mode fghc-mode prog-mode "Flat GHC"
  "Major mode for programs of Flat GHC."
  (setq-local comment-start "% ")
  (setq-local comment-start-skip "%+ *")
  (setq-local indent-line-function #'fghc-indent-line)
  (setq-local imenu-create-index-function #'fghc--index)
  (setq-local font-lock-defaults '(fghc-font-lock-keywords)))

;;;###autoload
(add-to-list 'auto-mode-alist '("\\.ghc\\'" . fghc-mode))

;; The language server, by eglot or by lsp-mode.
(defvar eglot-server-programs)
(defvar lsp-language-id-configuration)
(declare-function lsp-register-client "lsp-mode")
(declare-function lsp-stdio-connection "lsp-mode")
(declare-function make-lsp-client "lsp-mode")

(with-eval-after-load 'eglot
  (add-to-list 'eglot-server-programs (cons 'fghc-mode fghc-server)))

(with-eval-after-load 'lsp-mode
  (add-to-list 'lsp-language-id-configuration '(fghc-mode . "fghc"))
  (lsp-register-client (make-lsp-client :new-connection (lsp-stdio-connection fghc-server)
                                        :major-modes '(fghc-mode) :server-id 'ghcdb)))

;; dap-mode: its commands for stepping back are these two.  dap-mode 0.7 reads the next variable before dap-ui has made it.
(defvar dap-exception-breakpoints nil)

(defun fghc--provide (configuration)
  "Complete the launch CONFIGURATION of dap-mode."
  (unless (plist-get configuration :dap-server-path)
    (setq configuration (plist-put configuration :dap-server-path fghc-adapter)))
  (unless (plist-get configuration :program)
    (setq configuration (plist-put configuration :program (buffer-file-name))))
  configuration)

(declare-function dap-register-debug-provider "dap-mode")
(declare-function dap-register-debug-template "dap-mode")

(with-eval-after-load 'dap-mode
  (dap-register-debug-provider "ghcdb" #'fghc--provide)
  (dap-register-debug-template "Flat GHC" (list :type "ghcdb" :request "launch" :name "Flat GHC")))

(declare-function dap--cur-session "dap-mode")
(declare-function dap--debug-session-thread-id "dap-mode")
(declare-function dap--make-request "dap-mode")
(declare-function dap--resp-handler "dap-mode")
(declare-function dap--resume-application "dap-mode")
(declare-function dap--send-message "dap-mode")
(declare-function dape--live-connection "dape")
(declare-function dape--next-like-command "dape")

(defun fghc--dap-send (request)
  "Send REQUEST about the process that is shown, by dap-mode."
  (let ((session (dap--cur-session)))
    (dap--send-message (dap--make-request request (list :threadId (or (dap--debug-session-thread-id session) 1)))
                       (dap--resp-handler (lambda (_) (dap--resume-application session)))
                       session)))

(defun fghc--send (request)
  "Send REQUEST about the process that is shown.
By dape where it debugs, else by dap-mode."
  (let ((connection (and (fboundp 'dape--live-connection) (dape--live-connection 'stopped t))))
    (if connection
        (dape--next-like-command connection request)
      (fghc--dap-send request))))

(defun fghc-step-back ()
  "Take back the last step of the process that is shown."
  (interactive)
  (fghc--send "stepBack"))

(defun fghc-reverse-continue ()
  "Go back to the step that bound a watched variable.
Where none is watched go to a breakpoint, else to the beginning."
  (interactive)
  (fghc--send "reverseContinue"))

(with-eval-after-load 'dape
  (when (boundp 'dape-configs)
    (add-to-list 'dape-configs
                 `(ghcdb modes (fghc-mode) command ,(car fghc-adapter) command-args ,(cdr fghc-adapter)
                         :type "ghcdb" :request "launch" :program dape-buffer-default))))

(provide 'fghc-mode)
;;; fghc-mode.el ends here
