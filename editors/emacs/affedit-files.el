;;; affedit-files.el --- The files of dictionaries and of personal lists  -*- lexical-binding: t -*-

;;; Commentary:

;; A dictionary is found by its name, and has a personal list of its own: `words.NAME' in the user's data folder.  An item is a line of a list
;; (docs/CONSOLE.md).

;;; Code:

(require 'cl-lib)
(require 'subr-x)

(defvar affedit-own)

;; Dictionaries by name.

(defun affedit--data-folder ()
  "The folder of prepared dictionaries and of personal lists."
  (let ((base (getenv "XDG_DATA_HOME")))
    (expand-file-name "affedit" (if (and base (not (equal base ""))) base "~/.local/share"))))

(defun affedit--folders ()
  "The folders in which a name is looked for, in this order."
  (append (list (affedit--data-folder))
          (split-string (or (getenv "DICPATH") "") ":" t)
          '("/usr/share/hunspell" "/usr/share/myspell/dicts")))

(defun affedit--find-dictionary (name)
  "The path of the dictionary NAME, without `.aff'.  An error where there is none."
  (let* ((stem (replace-regexp-in-string "\\.\\(aff\\|dic\\)\\'" "" name))
         (stems (if (string-match-p "/" stem)
                    (list (expand-file-name stem))
                  (mapcar (lambda (folder) (expand-file-name stem folder)) (affedit--folders)))))
    (or (cl-find-if (lambda (path)
                      (and (file-readable-p (concat path ".aff")) (file-readable-p (concat path ".dic"))))
                    stems)
        (user-error "No dictionary %s in %s" name (string-join (affedit--folders) ", ")))))

(defun affedit--dictionary-names ()
  "All names that are found."
  (let (names)
    (dolist (folder (affedit--folders))
      (when (file-directory-p folder)
        (dolist (file (directory-files folder nil "\\.aff\\'"))
          (let ((name (file-name-sans-extension file)))
            (when (file-readable-p (expand-file-name (concat name ".dic") folder))
              (cl-pushnew name names :test #'equal))))))
    (sort names #'string<)))

;; Personal lists.

(defun affedit--shared-list ()
  "The list that served all dictionaries before each had its own."
  (expand-file-name "words" (affedit--data-folder)))

(defun affedit--own-file (pair)
  "The personal list of the dictionary PAIR, which `affedit-own' sets for all of them."
  (expand-file-name (or affedit-own
                        (expand-file-name (concat "words." (file-name-nondirectory pair)) (affedit--data-folder)))))

(defun affedit--begin-list (own)
  "Make the list OWN where there is none.
That of a dictionary begins with the words of the list that served all."
  (make-directory (file-name-directory own) t)
  (unless (file-exists-p own)
    (if (or affedit-own (not (file-exists-p (affedit--shared-list))))
        (write-region "" nil own nil 'silent)
      ;; A list that is there has all of them.
      (let ((begun (make-temp-file (concat own "."))))
        (unwind-protect
            (progn (copy-file (affedit--shared-list) begun t)
                   (set-file-modes begun (file-modes (affedit--shared-list)))
                   (ignore-error file-already-exists
                     (rename-file begun own)))
          (when (file-exists-p begun)
            (delete-file begun)))))))

(defun affedit--append-item (own item)
  "Append ITEM to the list OWN."
  (let ((coding-system-for-write 'utf-8-unix)
        (unended (and (file-exists-p own)
                      (> (file-attribute-size (file-attributes own)) 0)
                      (with-temp-buffer
                        (let ((size (file-attribute-size (file-attributes own))))
                          (insert-file-contents-literally own nil (1- size) size))
                        (not (equal (buffer-string) "\n"))))))
    (write-region (concat (if unended "\n" "") item "\n") nil own t 'silent)))

(defun affedit--items (own)
  "The items of the list OWN, in its order."
  (and (file-exists-p own)
       (with-temp-buffer
         (let ((coding-system-for-read 'utf-8-unix))
           (insert-file-contents own))
         (delete-dups (split-string (buffer-string) "[\r\n]+" t "[ \t]+")))))

(defun affedit--remove-item (own item)
  "Remove all lines of the list OWN that are ITEM, and return whether there were any.
All other bytes stay, and the file is the old one or the new one at any time."
  (let* ((file (file-truename own)) (kept (make-temp-file (concat file ".")))
         (line (concat "^[ \t]*" (regexp-quote (encode-coding-string item 'utf-8)) "[ \t]*\r?\\(?:\n\\|\\'\\)"))
         (case-fold-search nil) (coding-system-for-write 'binary) (found nil) (size nil))
    (unwind-protect
        (with-temp-buffer
          (set-buffer-multibyte nil)
          ;; What another program appends meanwhile stays too.
          (while (not (eql size (file-attribute-size (file-attributes file))))
            (copy-file file kept t nil t)
            (erase-buffer)
            (setq size (cadr (insert-file-contents-literally kept)) found nil)
            (goto-char (point-min))
            (while (and (not (eobp)) (re-search-forward line nil t))
              (setq found t)
              (replace-match "" t t))
            (when found
              (write-region (point-min) (point-max) kept nil 'silent)))
          (when found
            (set-file-modes kept (file-modes file))
            (rename-file kept file t)))
      (when (file-exists-p kept)
        (delete-file kept)))
    found))

(defun affedit--item-word (item)
  "The word of ITEM, without the sign that prohibits it and without its model."
  (let* ((word (string-remove-prefix "*" item))
         (model (string-match "[^\\]\\(/\\)" word)))
    (replace-regexp-in-string "\\\\/" "/" (if model (substring word 0 (match-beginning 1)) word) t t)))

(defun affedit--item-here (items)
  "The longest of ITEMS whose word stands at point, or nil."
  (let ((exact (make-hash-table :test #'equal)) (folded (make-hash-table :test #'equal)) (longest 0) (best 0) found)
    (dolist (item items)
      (let ((word (affedit--item-word item)))
        (puthash word item exact)
        (puthash (downcase word) item folded)
        (setq longest (max longest (length word)))))
    ;; Longer words are left to completion.
    (setq longest (min longest 80))
    (cl-loop
     for start from (max (line-beginning-position) (- (point) longest)) to (point)
     unless (affedit--inside-word-p start)
     do (cl-loop
         for end from (max (point) (+ start best 1)) to (min (line-end-position) (+ start longest))
         do (let* ((word (buffer-substring-no-properties start end))
                   (item (and (not (affedit--inside-word-p end))
                              (or (gethash word exact) (gethash (downcase word) folded)))))
              (when item
                (setq found item best (- end start))))))
    found))

(defun affedit--inside-word-p (position)
  "Whether letters or digits stand on both sides of POSITION."
  (save-excursion
    (goto-char position)
    (and (not (bolp)) (looking-at-p "[[:alnum:]]")
         (progn (forward-char -1) (looking-at-p "[[:alnum:]]")))))

(provide 'affedit-files)

;; Local Variables:
;; byte-compile-docstring-max-column: 160
;; End:

;;; affedit-files.el ends here
