;;; inform.el --- messages of the compiler inform in Emacs  -*- lexical-binding: t -*-

;;; Commentary:

;; (load "/home/me/inform/editors/emacs/inform.el") in the init file.  Then M-x inform-compile compiles the file at hand, and
;; M-g n goes to its next message.  `inform-words' has words for the compiler, as "+/home/me/inform/lib -D".

;;; Code:

(require 'compile)

(defvar inform-command "inform" "The compiler.")
(defvar inform-words "" "Words for the compiler, before the name of the source.")

(add-to-list 'compilation-error-regexp-alist-alist
             '(inform "^\\(.+\\)(\\([0-9]+\\)): \\(?:Fatal error\\|Error\\|\\(Warning\\)\\): " 1 2 nil (3)))
(add-to-list 'compilation-error-regexp-alist 'inform)

(defun inform-compile ()
  "Compile the Inform source of this buffer."
  (interactive)
  (save-buffer)
  (compile (concat inform-command " " inform-words " " (shell-quote-argument (file-name-nondirectory buffer-file-name)))))

(provide 'inform)

;;; inform.el ends here
