;;; civl.el --- Compilation mode reads the lines of civl_explain  -*- lexical-binding: t -*-

;; Load this file, and then call `civl-explain' in a buffer that visits a text. `civl_explain' has to be on the PATH.

(require 'compile)

(defconst civl-pattern
  '(civl "^\\([0-9]+\\):\\([0-9]+\\): \\(?:error\\|\\(info\\)\\): " civl-file 1 2 (nil . 3))
  "LINE:COLUMN: KIND: TEXT, of the file that was read.")

(defvar civl-text nil "The file that was read.")

(defun civl-file () "The file that was read." (or civl-text (user-error "No text was read")))

(define-compilation-mode civl-mode "Civl"
  "Shows what civl_explain prints."
  (setq-local compilation-error-regexp-alist '(civl))
  (setq-local compilation-error-regexp-alist-alist (list civl-pattern))
  (setq-local compilation-first-column 1))

(defun civl-explain (words)
  "Runs civl_explain with these WORDS on the file of this buffer."
  (interactive (list (read-string "Words: " "check")))
  (save-buffer)
  (setq civl-text (buffer-file-name))
  (compilation-start
   (format "civl_explain %s --lines < %s" words (shell-quote-argument civl-text)) #'civl-mode))

(provide 'civl)
;;; civl.el ends here
