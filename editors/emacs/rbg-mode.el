;;; rbg-mode.el --- Descriptions of games of Regular Boardgames -*- lexical-binding: t -*-

;;; Commentary:
;; Highlighting, and the server `rbg_author lsp' by eglot: put (require 'rbg-mode) into your init file.

;;; Code:

(defvar rbg-program "rbg_author"
  "The program that serves the editor, by its name or its path.")

(defvar rbg-mode-syntax-table
  (let ((table (make-syntax-table)))
    (modify-syntax-entry ?_ "w" table)
    (modify-syntax-entry ?/ ". 12" table)
    (modify-syntax-entry ?\n ">" table)
    table)
  "Comments begin with two slashes and end with their line.")

(defvar rbg-font-lock-keywords
  '(("#\\s-*\\(players\\|pieces\\|variables\\|board\\|rules\\)\\_>" 1 font-lock-keyword-face)
    ("#\\s-*\\([A-Za-z_][A-Za-z0-9_]*\\)" 1 font-lock-function-name-face)
    ("->>" . font-lock-keyword-face)
    ("\\(->\\)\\s-*\\([A-Za-z_][A-Za-z0-9_]*\\)" (1 font-lock-keyword-face) (2 font-lock-type-face))
    ("\\_<\\(rectangle\\|hexagon\\|graph\\)\\_>\\s-*(" 1 font-lock-builtin-face)
    ("\\_<[0-9]+\\_>" . font-lock-constant-face)))

;;;###autoload
(define-derived-mode rbg-mode prog-mode "rbg"
  "Mode for descriptions of games."
  (setq-local comment-start "// ")
  (setq-local font-lock-defaults '(rbg-font-lock-keywords)))

;;;###autoload
(add-to-list 'auto-mode-alist '("\\.rbg\\'" . rbg-mode))

(with-eval-after-load 'eglot
  (add-to-list 'eglot-server-programs
               `(rbg-mode . ,(lambda (&rest _) (list rbg-program "lsp")))))

(add-hook 'rbg-mode-hook #'eglot-ensure)

(provide 'rbg-mode)
;;; rbg-mode.el ends here
